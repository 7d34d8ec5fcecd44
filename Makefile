# The library for C and for what calls C: target/lib/libniqastul.a and target/lib/libniqastul.so, from the proved crate
# `exports_c`; and the program, target/bin/blocks.
#   make                       build (rt proves what it has not proved yet, and each crate is named when it is proved)
#   make program               the program `blocks`
#   make case                  the program `blocks` on the whole case of document 01
#   make install PREFIX=/usr   the header, both libraries and niqastul.pc; DESTDIR is put before it
#   make check                 the tests of the library and of the bindings
#   make bench                 the measurements
PREFIX = /usr/local
LIBDIR = $(PREFIX)/lib
INCLUDEDIR = $(PREFIX)/include
# A change of the header raises the minor number. The shared object is named by both numbers, so that a host built
# against another header cannot load it. The header and bindings/ name the version too; tests/hosts/test_interface.py
# holds them together.
VERSION = 0.8.0
SONAME = libniqastul.so.$(basename $(VERSION))

SOURCES := crates.txt $(shell find crates -name out -prune -o \( -name '*.rt' -o -name '*.antt' \) -print)

# rt in the folder of a crate, with a line for each crate as it is proved; without python3 rt alone, which says all that
# it has to say
RT = $(if $(shell command -v python3 2>/dev/null),python3 -B gate/progress.py rt $(1) $(2),cd crates/$(2) && rt $(1))

# where rt leaves what it builds
ARCHIVE = crates/exports_c/out/libexports_c.a
PROGRAM = crates/blocks/out/blocks

.PHONY: all program case install uninstall check bench clean
# `rt ci` takes these away again, which is no reason to build what was made of them
.SECONDARY: $(ARCHIVE) $(PROGRAM)
.DELETE_ON_ERROR:

all: target/lib/libniqastul.a target/lib/libniqastul.so

program: target/bin/blocks

$(ARCHIVE): $(SOURCES)
	@$(call RT,lib,exports_c)
	@touch $@

# rt also runs it once, in a folder without its files
$(PROGRAM): $(SOURCES)
	@$(call RT,run,blocks)
	@touch $@

target/lib/libniqastul.a: $(ARCHIVE)
	@mkdir -p target/lib
	cp $< $@

target/bin/blocks: $(PROGRAM)
	@mkdir -p target/bin
	cp $< $@

target/lib/$(SONAME): target/lib/libniqastul.a
	$(CC) -shared -Wl,-soname,$(SONAME) -Wl,-z,defs -Wl,--whole-archive $< -Wl,--no-whole-archive -o $@

target/lib/libniqastul.so: target/lib/$(SONAME)
	ln -sf $(SONAME) $@

# how far the proofs are is said on standard error, so that standard output is the case alone
case:
	@$(MAKE) --no-print-directory program >&2
	@cd crates/blocks/data && ../../../target/bin/blocks

define PKG_CONFIG
prefix=$(PREFIX)
libdir=$(LIBDIR)
includedir=$(INCLUDEDIR)

Name: niqastul
Description: Elimination forests of graphs, grown, joined and divided, and indexes of neighbours; proved
Version: $(VERSION)
Libs: -L$${libdir} -lniqastul
Cflags: -I$${includedir}
endef
export PKG_CONFIG

install: all
	install -d $(DESTDIR)$(INCLUDEDIR) $(DESTDIR)$(LIBDIR)/pkgconfig
	install -m 644 include/niqastul.h $(DESTDIR)$(INCLUDEDIR)/
	install -m 644 target/lib/libniqastul.a $(DESTDIR)$(LIBDIR)/
	install -m 755 target/lib/$(SONAME) $(DESTDIR)$(LIBDIR)/
	ln -sf $(SONAME) $(DESTDIR)$(LIBDIR)/libniqastul.so
	echo "$$PKG_CONFIG" > $(DESTDIR)$(LIBDIR)/pkgconfig/niqastul.pc

uninstall:
	cd $(DESTDIR)$(LIBDIR) && rm -f libniqastul.a libniqastul.so $(SONAME) pkgconfig/niqastul.pc
	rm -f $(DESTDIR)$(INCLUDEDIR)/niqastul.h

check: all
	tests/run

bench: all
	bench/run

clean:
	rm -rf target/lib
