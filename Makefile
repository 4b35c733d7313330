# Installs what a C or Rust program needs: libjitamoro.a, jitamoro.h and jitamoro.pc for pkg-config.
#
#     make install PREFIX=/usr/local       DESTDIR=.. puts it all below another root, for packages
#     make uninstall PREFIX=/usr/local
#
# The archive is proved and built first (./build), where it isn't newer than everything that it is made of.
PREFIX ?= /usr/local
LIBDIR ?= $(PREFIX)/lib
INCLUDEDIR ?= $(PREFIX)/include
PKGCONFIGDIR ?= $(LIBDIR)/pkgconfig

archive := target/staticlib/libjitamoro.a
sources := build crates.txt $(shell find crates -name out -prune -o '(' -name '*.rt' -o -name '*.antt' ')' -print)
version := $(shell sed -n 's/^.define JITAMORO_VERSION "\(.*\)"/\1/p' include/jitamoro.h)
installed := $(LIBDIR)/libjitamoro.a $(INCLUDEDIR)/jitamoro.h $(PKGCONFIGDIR)/jitamoro.pc

$(archive): $(sources)
	./build

install: $(archive)
	install -d '$(DESTDIR)$(LIBDIR)' '$(DESTDIR)$(INCLUDEDIR)' '$(DESTDIR)$(PKGCONFIGDIR)'
	install -m 644 $(archive) '$(DESTDIR)$(LIBDIR)'
	install -m 644 include/jitamoro.h '$(DESTDIR)$(INCLUDEDIR)'
	sed -e 's|@LIBDIR@|$(LIBDIR)|' -e 's|@INCLUDEDIR@|$(INCLUDEDIR)|' -e 's|@VERSION@|$(version)|' jitamoro.pc.in \
	    >'$(DESTDIR)$(PKGCONFIGDIR)/jitamoro.pc'

uninstall:
	rm -f $(foreach file,$(installed),'$(DESTDIR)$(file)')

.PHONY: install uninstall
