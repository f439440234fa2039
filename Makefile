# make            proves and builds the program, and runs it on the example
# make check      the gate: every proof and every test
# make install    program, launcher, tools, manual, completions and hook, below $(DESTDIR)$(PREFIX)
# make uninstall  takes these away again
# make deb, tar   packs the same into out/, for Debian and for any system; share/packaging has what they are made of, and an ebuild
PREFIX = /usr/local
DESTDIR =
BINDIR = $(PREFIX)/bin
# (the launcher looks for the program in ../libexec/gvis, seen from its own folder)
LIBEXECDIR = $(PREFIX)/libexec/gvis
DATADIR = $(PREFIX)/share
MANDIR = $(DATADIR)/man
BASHDIR = $(DATADIR)/bash-completion/completions
ZSHDIR = $(DATADIR)/zsh/site-functions
FISHDIR = $(DATADIR)/fish/vendor_completions.d
HOOKDIR = $(DATADIR)/gvis/hooks
# (the tools look for their module in ../share/gvis, seen from their own folder, and gvis-lrat for the plain program in plain there)
SHAREDDIR = $(DATADIR)/gvis
PLAINDIR = $(SHAREDDIR)/plain
INSTALL = install
TOOLS = gvis-causes gvis-language-server gvis-lrat gvis-watch
PLAIN = backing.py plain.py plain_atoms.py plain_gates.py plain_profiles.py

all:
	@GVIS_PROVED=1 ./gvis scan examples/repo --certs /dev/null >/dev/null; test $$? -eq 1

check:
	.ci/run

install: all
	$(INSTALL) -d "$(DESTDIR)$(BINDIR)" "$(DESTDIR)$(LIBEXECDIR)" "$(DESTDIR)$(MANDIR)/man1" "$(DESTDIR)$(BASHDIR)" "$(DESTDIR)$(ZSHDIR)" "$(DESTDIR)$(FISHDIR)" "$(DESTDIR)$(HOOKDIR)" "$(DESTDIR)$(PLAINDIR)"
	$(INSTALL) -m 755 gvis $(TOOLS:%=share/%) "$(DESTDIR)$(BINDIR)"
	$(INSTALL) -m 644 share/gvis_session.py "$(DESTDIR)$(SHAREDDIR)"
	$(INSTALL) -m 644 $(PLAIN:%=tests/%) "$(DESTDIR)$(PLAINDIR)"
	$(INSTALL) -m 755 crates/gvis/out/gvis "$(DESTDIR)$(LIBEXECDIR)/gvis"
	./gvis --version | $(INSTALL) -m 644 /dev/stdin "$(DESTDIR)$(LIBEXECDIR)/version"
	$(INSTALL) -m 644 share/man/gvis.1 "$(DESTDIR)$(MANDIR)/man1"
	$(INSTALL) -m 644 share/completions/gvis.bash "$(DESTDIR)$(BASHDIR)/gvis"
	$(INSTALL) -m 644 share/completions/_gvis "$(DESTDIR)$(ZSHDIR)"
	$(INSTALL) -m 644 share/completions/gvis.fish "$(DESTDIR)$(FISHDIR)"
	$(INSTALL) -m 755 share/hooks/pre-push "$(DESTDIR)$(HOOKDIR)"
	$(INSTALL) -m 644 share/causes.html "$(DESTDIR)$(SHAREDDIR)"

uninstall:
	cd "$(DESTDIR)$(BINDIR)" 2>/dev/null && rm -f gvis $(TOOLS) || :
	cd "$(DESTDIR)$(PLAINDIR)" 2>/dev/null && rm -f $(PLAIN) || :
	rm -f "$(DESTDIR)$(SHAREDDIR)/gvis_session.py" "$(DESTDIR)$(SHAREDDIR)/causes.html" "$(DESTDIR)$(LIBEXECDIR)/gvis" "$(DESTDIR)$(LIBEXECDIR)/version"
	rm -f "$(DESTDIR)$(MANDIR)/man1/gvis.1" "$(DESTDIR)$(BASHDIR)/gvis" "$(DESTDIR)$(ZSHDIR)/_gvis" "$(DESTDIR)$(FISHDIR)/gvis.fish" "$(DESTDIR)$(HOOKDIR)/pre-push"
	rmdir "$(DESTDIR)$(LIBEXECDIR)" "$(DESTDIR)$(HOOKDIR)" "$(DESTDIR)$(PLAINDIR)" "$(DESTDIR)$(SHAREDDIR)" 2>/dev/null || :

deb tar: all
	@share/packaging/build $@

.PHONY: all check install uninstall deb tar
