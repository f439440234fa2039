# Distributed under the terms of the GNU General Public License v2

EAPI=8

DESCRIPTION="Draws on terminals"

SLOT="0/6"
KEYWORDS="amd64 riscv"
IUSE="unicode"
