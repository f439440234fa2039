# Distributed under the terms of the GNU General Public License v2

EAPI=8

DESCRIPTION="Small editor for the terminal"

SLOT="0"
KEYWORDS="amd64 riscv"
IUSE="magic minimal unicode"
REQUIRED_USE="minimal? ( !magic )"

RDEPEND="
	sys-libs/ncurses:=
	magic? ( >=sys-apps/file-5.45 )
"
