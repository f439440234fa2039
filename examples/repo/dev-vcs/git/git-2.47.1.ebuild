# Distributed under the terms of the GNU General Public License v2

EAPI=8

DESCRIPTION="Keeps versions of files"

SLOT="0"
KEYWORDS="amd64 ~riscv"
IUSE="pcre"

RDEPEND="
	pcre? ( dev-libs/libpcre2:= )
"
