# Distributed under the terms of the GNU General Public License v2

EAPI=8

DESCRIPTION="Terminal multiplexer"

SLOT="0"
KEYWORDS="amd64 riscv"
IUSE="systemd utempter"

RDEPEND="
	>=dev-libs/libevent-2.1.5:=
	sys-libs/ncurses:=
	systemd? ( sys-apps/systemd )
	utempter? ( || ( sys-libs/libutempter sys-libs/utempter ) )
"
