# The library for C and Rust on x86-64 Linux: made, installed, and the examples in C. `make help` says how.
#
# The proofs and the programs are the Rattle kit's (`rt`, .ci/run); this file needs it for `make lib` alone.

PREFIX = /usr/local
DESTDIR =
CC = gcc
CFLAGS = -std=c11 -Wall -Wextra -Wpedantic -Werror -O2

MADE = target/staticlib/libcdrom.a
LIB = $(MADE)
HEADER = include/cdrom.h
VERSION = $(shell sed -n 's/^\#define CDROM_VERSION \([0-9][0-9]*\)$$/\1/p' $(HEADER))
INSTALLED = $(DESTDIR)$(PREFIX)

PROGRAMS = seal lines drive long lengths speak against image verify
EXAMPLES = $(PROGRAMS:%=target/examples/%)

.PHONY: help lib install uninstall examples clean

help:
	@echo 'make lib                          proves the library and makes $(MADE); needs the kit'
	@echo 'make install [PREFIX=$(PREFIX)] [DESTDIR=]   installs archive, header and cdrom.pc'
	@echo 'make uninstall [PREFIX=..] [DESTDIR=..]       removes them'
	@echo 'make examples                     builds the examples in C into target/examples'
	@echo 'make clean                        removes target/examples'
	@echo 'install and examples take LIB=ARCHIVE for an archive that lies elsewhere.'

# The old archive goes first, so that none is left that is not the proved one.
lib:
	@command -v rt >/dev/null || { echo 'make lib: the Rattle kit is missing: there is no rt on the PATH' >&2; exit 1; }
	rm -f $(MADE)
	cd crates/exports && rt lib
	@mkdir -p $(dir $(MADE))
	cp crates/exports/out/libexports.a $(MADE)

# Installing builds nothing: it may run as another user, without the kit.
install: $(LIB)
	@test -n '$(VERSION)' || { echo 'make install: $(HEADER) has no CDROM_VERSION' >&2; exit 1; }
	install -d '$(INSTALLED)/lib/pkgconfig' '$(INSTALLED)/include'
	install -m 644 '$(LIB)' '$(INSTALLED)/lib/libcdrom.a'
	install -m 644 $(HEADER) '$(INSTALLED)/include/cdrom.h'
	sed -e 's|@PREFIX@|$(PREFIX)|' -e 's|@VERSION@|$(VERSION)|' cdrom.pc.in >'$(INSTALLED)/lib/pkgconfig/cdrom.pc'
	chmod 644 '$(INSTALLED)/lib/pkgconfig/cdrom.pc'

uninstall:
	rm -f '$(INSTALLED)/lib/libcdrom.a' '$(INSTALLED)/include/cdrom.h' '$(INSTALLED)/lib/pkgconfig/cdrom.pc'

examples: $(EXAMPLES)

target/examples/against: examples/calls.c examples/own.c examples/calls.h examples/own.h

target/examples/%: examples/%.c $(HEADER) $(LIB)
	@mkdir -p target/examples
	$(CC) $(CFLAGS) -Iinclude $(filter %.c,$^) '$(LIB)' -o $@

clean:
	rm -rf target/examples

$(LIB):
	@echo '$(LIB) is missing: run `make lib`, or name another archive by LIB=' >&2; exit 1
