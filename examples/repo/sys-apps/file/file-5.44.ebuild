# Distributed under the terms of the GNU General Public License v2

EAPI=8

DESCRIPTION="Tells the type of a file"

SLOT="0"
KEYWORDS="amd64 riscv"
