# Distributed under the terms of the GNU General Public License v2

EAPI=8

DESCRIPTION="Calls back on events"

SLOT="0/2.1-7"
KEYWORDS="amd64 riscv"
