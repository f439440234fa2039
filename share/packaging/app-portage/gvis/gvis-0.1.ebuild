# The licence: share/packaging/copyright of gvis's repository, in the archive as usr/share/doc/gvis/copyright.

EAPI=8

DESCRIPTION="Tells which dependencies of a Gentoo repository can't be met"
# What `make tar` makes of the commit with the tag of this version; put it into DISTDIR.
SRC_URI="${P}-amd64.tar.gz"

LICENSE="all-rights-reserved"
SLOT="0"
KEYWORDS="-* ~amd64"
# (the program is byte for byte the one that was proved)
RESTRICT="bindist fetch mirror strip"

RDEPEND="
	dev-lang/python:*
	>=sys-libs/glibc-2.34
"

QA_PREBUILT="usr/libexec/gvis/gvis"

src_install() {
	cp -pR usr "${ED}" || die
	mv "${ED}"/usr/share/doc/gvis "${ED}/usr/share/doc/${PF}" || die
}
