# Installs the programs: `make install` proves and builds `patterns` and `fre`, and installs them below PREFIX with their man pages and the
# completions of `patterns` for bash, zsh and fish, inside DESTDIR where that is set. The library for C is installed by `make -C c install`.
# `make uninstall` with the same variables removes the files. Needs the toolchain. The first build takes about half an hour on four processors;
# after `rt ci` it takes seconds. `make dist` packs what was built, for machines without the toolchain.
PREFIX = /usr/local
BINDIR = $(PREFIX)/bin
DATADIR = $(PREFIX)/share
DESTDIR =
INSTALL = install

sources := $(shell find crates/*/src -type f -name '*.rt')

all: crates/patterns/out/patterns crates/fre/out/fre

crates/patterns/out/patterns: $(sources)
	cd crates/patterns && rt run -- --help >/dev/null

crates/fre/out/fre: $(sources)
	cd crates/fre && rt run -- u a >/dev/null

install: all
	$(INSTALL) -d $(DESTDIR)$(BINDIR) $(DESTDIR)$(DATADIR)/man/man1 $(DESTDIR)$(DATADIR)/bash-completion/completions \
	    $(DESTDIR)$(DATADIR)/zsh/site-functions $(DESTDIR)$(DATADIR)/fish/vendor_completions.d
	$(INSTALL) -m 755 crates/patterns/out/patterns crates/fre/out/fre $(DESTDIR)$(BINDIR)
	$(INSTALL) -m 644 man/patterns.1 man/fre.1 $(DESTDIR)$(DATADIR)/man/man1
	$(INSTALL) -m 644 completions/patterns.bash $(DESTDIR)$(DATADIR)/bash-completion/completions/patterns
	$(INSTALL) -m 644 completions/_patterns $(DESTDIR)$(DATADIR)/zsh/site-functions
	$(INSTALL) -m 644 completions/patterns.fish $(DESTDIR)$(DATADIR)/fish/vendor_completions.d

uninstall:
	rm -f $(DESTDIR)$(BINDIR)/patterns $(DESTDIR)$(BINDIR)/fre $(DESTDIR)$(DATADIR)/man/man1/patterns.1 $(DESTDIR)$(DATADIR)/man/man1/fre.1 \
	    $(DESTDIR)$(DATADIR)/bash-completion/completions/patterns $(DESTDIR)$(DATADIR)/zsh/site-functions/_patterns \
	    $(DESTDIR)$(DATADIR)/fish/vendor_completions.d/patterns.fish

dist:
	tools/dist

.PHONY: all install uninstall dist
