# Distributed under the terms of the GNU General Public License v2

EAPI=8

DESCRIPTION="Regular expressions"

SLOT="0/3"
KEYWORDS="amd64"
