# cpgring, from the top of the repository.
#
#   make quick                                   program, C library, daemon and libcpg without their proofs, optimised, under
#                                                out/quick: some five minutes. The program says that it is not proved
#   make install PREFIX=/usr/local DESTDIR=      the proved program, its manual and completions, and the C library
#   make install-daemon PREFIX=/usr/local DESTDIR=    the daemon, its control client, libcpg and what belongs to them
#
# What is installed is proved: `rt ci` leaves the program, and what is not proved yet is proved first, in hours.
PREFIX ?= /usr/local
PROGRAM := crates/cpgring/out/cpgring
SOURCES := $(wildcard crates/*/src crates/*/specs crates/*/proofs)
SHARE = $(DESTDIR)$(PREFIX)/share

all: $(PROGRAM)

quick:
	tools/unproved-program
	$(MAKE) -C daemon OUT=../out/quick/daemon CPGRING_LIBRARY=$$(tools/unproved-c)

$(PROGRAM): always
	[ -x $@ ] && [ -z "$$(find crates.txt $(SOURCES) -newer $@ -print -quit)" ] || (cd crates/cpgring && rt run -- --version)

install: $(PROGRAM)
	install -d $(DESTDIR)$(PREFIX)/bin $(SHARE)/man/man1 $(SHARE)/bash-completion/completions
	install -d $(SHARE)/zsh/site-functions $(SHARE)/fish/vendor_completions.d
	install -m 755 $(PROGRAM) $(DESTDIR)$(PREFIX)/bin/cpgring
	install -m 644 docs/man/cpgring.1 $(SHARE)/man/man1
	$(PROGRAM) completions bash >$(SHARE)/bash-completion/completions/cpgring
	$(PROGRAM) completions zsh >$(SHARE)/zsh/site-functions/_cpgring
	$(PROGRAM) completions fish >$(SHARE)/fish/vendor_completions.d/cpgring.fish
	$(MAKE) -C c install PREFIX=$(PREFIX) DESTDIR=$(DESTDIR)

install-daemon:
	$(MAKE) -C daemon install PREFIX=$(PREFIX) DESTDIR=$(DESTDIR)

.PHONY: all quick install install-daemon always
