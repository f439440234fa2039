# Distributed under the terms of the GNU General Public License v2

EAPI=8

DESCRIPTION="Records who is logged in"

SLOT="0"
KEYWORDS="~amd64 ~riscv"
