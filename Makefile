# Makes and installs the library, its header and the command. It needs a C compiler and Python 3; the Rattle kit only proves.
#
#     make                          the library in build/: librowkeeper.a, librowkeeper.so.3
#     make FROM=c                   from dist/rowkeeper.c in place of the assembly; other machines than x86-64 Linux always do that
#     make install PREFIX=/usr      library, header, rowkeeper.pc, command, man page; DESTDIR is put in front of every path
#     make uninstall PREFIX=/usr    takes away what `make install` put there
#     make check                    the tests that need no kit; ./test is the whole test
#     make clean                    removes build/

PREFIX ?= /usr/local
BINDIR ?= $(PREFIX)/bin
LIBDIR ?= $(PREFIX)/lib
INCLUDEDIR ?= $(PREFIX)/include
MANDIR ?= $(PREFIX)/share/man
DOCDIR ?= $(PREFIX)/share/doc/rowkeeper
DESTDIR ?=
PYTHON ?= python3
INSTALL ?= install
FROM ?=

VERSION := $(shell sed -n 's/^version //p' interface/rowkeeper.txt)
ABI := $(shell sed -n 's/^abi //p' interface/rowkeeper.txt)
SHARED := librowkeeper.so.$(ABI)
PARTS := $(LIBDIR)/rowkeeper
MODULES := $(wildcard cli/*.py)
BINDING := $(wildcard bindings/python/rowkeeper/*.py)
# The path from one folder to another.
from = $(shell $(PYTHON) -c 'import os, sys; print(os.path.relpath(sys.argv[2], sys.argv[1]))' '$(1)' '$(2)')

.PHONY: all install uninstall check clean

# Prints the path of the library, and makes it if needed. What is made is known by its sum, so nothing here goes by times.
LIBRARY := env -u ROWKEEPER_ARCHIVE ROWKEEPER_FROM='$(FROM)' $(PYTHON) tools/library

all:
	@$(LIBRARY)
	@$(LIBRARY) shared

install: all
	$(INSTALL) -d '$(DESTDIR)$(BINDIR)' '$(DESTDIR)$(LIBDIR)/pkgconfig' '$(DESTDIR)$(INCLUDEDIR)' '$(DESTDIR)$(MANDIR)/man1' \
	    '$(DESTDIR)$(DOCDIR)' '$(DESTDIR)$(PARTS)/cli' '$(DESTDIR)$(PARTS)/rowkeeper'
	$(INSTALL) -m 644 "$$($(LIBRARY))" '$(DESTDIR)$(LIBDIR)/librowkeeper.a'
	$(INSTALL) -m 755 "$$($(LIBRARY) shared)" '$(DESTDIR)$(LIBDIR)/$(SHARED)'
	ln -sf '$(SHARED)' '$(DESTDIR)$(LIBDIR)/librowkeeper.so'
	$(INSTALL) -m 644 include/rowkeeper.h '$(DESTDIR)$(INCLUDEDIR)/rowkeeper.h'
	sed -e 's|@PREFIX@|$(PREFIX)|' -e 's|@LIBDIR@|$(LIBDIR)|' -e 's|@INCLUDEDIR@|$(INCLUDEDIR)|' -e 's|@VERSION@|$(VERSION)|' \
	    install/rowkeeper.pc.in >'$(DESTDIR)$(LIBDIR)/pkgconfig/rowkeeper.pc'
	$(INSTALL) -m 644 $(MODULES) '$(DESTDIR)$(PARTS)/cli'
	$(INSTALL) -m 644 $(BINDING) '$(DESTDIR)$(PARTS)/rowkeeper'
	ln -sf '$(call from,$(PARTS)/rowkeeper,$(LIBDIR)/$(SHARED))' '$(DESTDIR)$(PARTS)/rowkeeper/$(SHARED)'
	sed "s|^PARTS = .*|PARTS = '$(call from,$(BINDIR),$(PARTS))'|" rowkeeper >'$(DESTDIR)$(BINDIR)/rowkeeper'
	chmod 755 '$(DESTDIR)$(BINDIR)/rowkeeper'
	$(PYTHON) -B -m cli.page >'$(DESTDIR)$(MANDIR)/man1/rowkeeper.1'
	chmod 644 '$(DESTDIR)$(LIBDIR)/pkgconfig/rowkeeper.pc' '$(DESTDIR)$(MANDIR)/man1/rowkeeper.1'
	$(INSTALL) -m 644 LICENSE NOTICE CHANGES.md dist/SOURCE '$(DESTDIR)$(DOCDIR)'

uninstall:
	rm -f '$(DESTDIR)$(LIBDIR)/librowkeeper.a' '$(DESTDIR)$(LIBDIR)/$(SHARED)' '$(DESTDIR)$(LIBDIR)/librowkeeper.so' \
	    '$(DESTDIR)$(INCLUDEDIR)/rowkeeper.h' '$(DESTDIR)$(LIBDIR)/pkgconfig/rowkeeper.pc' '$(DESTDIR)$(BINDIR)/rowkeeper' \
	    '$(DESTDIR)$(MANDIR)/man1/rowkeeper.1'
	rm -rf '$(DESTDIR)$(PARTS)' '$(DESTDIR)$(DOCDIR)'

check:
	tools/interface check
	tools/dist source
	hosttest/check
	examples/c/check
	install/check
	bindings/python/check
	cli/check

clean:
	rm -rf build
