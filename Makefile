# make           the library, its header and its pkg-config file, in target/dist
# make install   the same to PREFIX, under DESTDIR if given; nothing is proved again
# make test      the gate: every proof, every test
# make demo      the sample desk
# make bench     time, beside its peers
PREFIX ?= /usr/local
DIST := target/dist
ARCHIVE := target/staticlib/libifc.a

.PHONY: all install test demo bench
all: $(ARCHIVE)
	mkdir -p $(DIST)/include $(DIST)/lib/pkgconfig
	cp include/ifc.h $(DIST)/include/
	cp $(ARCHIVE) $(DIST)/lib/
	sed 's|@PREFIX@|$(PREFIX)|' include/ifc.pc.in >$(DIST)/lib/pkgconfig/ifc.pc

# rt proves only what has changed. The crate ifc_c is ifc as C links it.
$(ARCHIVE): crates.txt $(shell find crates -name out -prune -o \( -name "*.rt" -o -name "*.antt" \) -print)
	mkdir -p target/staticlib
	cd crates/ifc_c && rt lib
	cp crates/ifc_c/out/libifc_c.a $@

install: all
	mkdir -p $(DESTDIR)$(PREFIX)
	cp -R $(DIST)/. $(DESTDIR)$(PREFIX)/

test:
	.ci/run

demo:
	@sh examples/run

bench:
	@sh bench/run
