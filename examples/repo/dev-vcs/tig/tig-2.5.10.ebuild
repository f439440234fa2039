# Distributed under the terms of the GNU General Public License v2

EAPI=8

DESCRIPTION="Shows git in the terminal"

SLOT="0"
KEYWORDS="amd64 ~riscv"
IUSE="pcre"

RDEPEND="
	dev-vcs/git
	sys-libs/ncurses:=
	pcre? ( dev-libs/libpcre2:= )
"
