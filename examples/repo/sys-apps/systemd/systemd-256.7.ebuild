# Distributed under the terms of the GNU General Public License v2

EAPI=8

DESCRIPTION="System and service manager"

SLOT="0/2"
KEYWORDS="amd64"
