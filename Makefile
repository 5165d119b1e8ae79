# The cache of bytes as a static library for C, C++ and Rust.
#
#     make                       proves and compiles it: lib/libmc_c.a and lib/liblibc_c.a, which a program links in this order
#     make install PREFIX=DIR    installs both, the header, and noddrefil.pc for pkg-config; without a lib/ it makes that first
#
# It wants the toolchain's rt on the path.
PREFIX = /usr/local
DESTDIR =
LIB = lib
at = $(DESTDIR)$(PREFIX)

all:
	cd crates/mc_c && rt lib
	mkdir -p $(LIB)
	cp crates/mc_c/out/libmc_c.a "$$(dirname "$$(rt doc)")/c/liblibc_c.a" $(LIB)/

$(LIB)/libmc_c.a:
	$(MAKE) all

install: $(LIB)/libmc_c.a
	mkdir -p "$(at)/include" "$(at)/lib/pkgconfig"
	install -m 644 include/noddrefil.h "$(at)/include/"
	install -m 644 $(LIB)/libmc_c.a $(LIB)/liblibc_c.a "$(at)/lib/"
	sed 's|@PREFIX@|$(PREFIX)|' include/noddrefil.pc.in >"$(at)/lib/pkgconfig/noddrefil.pc"

.PHONY: all install
