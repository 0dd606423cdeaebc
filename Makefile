# Puts the library for C, C++ and Rust, and the programs, where others find them, with no toolchain needed from there on:
#
#     make install PREFIX=/usr/local
#
#   lib/       libmaple.a and libmaple.so, each both archives and c/wait.c in one, with the calls of the headers and no other name;
#              libmaple_debug.a, whose calls look for faults of the program first (c/debug.c); and maple.pc
#   include/   the headers
#   bin/       mtreplay, mt_judge and mt_draw, linked with no library: those whose object files the gate or ./build left
#   share/     the manual page and the words that bash completes; the Rust crate, the examples in C and the licences in share/maple
#
# DESTDIR goes in front of PREFIX. The archives are those of bench/archives.sh, which has rt make what is missing or old; MAPLE_ARCHIVES
# names folders where they lie. Needs gcc and binutils.
SHELL = /bin/bash
PREFIX = /usr/local
made = out/install
to = $(DESTDIR)$(PREFIX)
version := $(shell sed -n 's/^\#define MAPLE_VERSION "\(.*\)"/\1/p' include/maple.h)
soname := libmaple.so.$(firstword $(subst ., ,$(version)))
programs = mtreplay mt_judge mt_draw

.PHONY: library programs install

library:
	mkdir -p $(made)
	source bench/archives.sh && make_archive > $(made)/archives
	source bench/archives.sh && whole_object $(made) maple.o $$(tail -n 2 $(made)/archives) && debug_object $(made) maple.o maple_debug.o
	rm -f $(made)/libmaple{,_debug}.a
	ar rcs $(made)/libmaple.a $(made)/maple.o
	ar rcs $(made)/libmaple_debug.a $(made)/maple_debug.o
	gcc -shared -Wl,-soname,$(soname) -Wl,-z,defs -o $(made)/libmaple.so.$(version) $(made)/maple.o

# An object file that is older than what it is made of is of another commit.
programs:
	mkdir -p $(made)/bin
	rm -f $(made)/bin/*
	for it in $(programs); do \
	    object=crates/$$it/out/$$it.o; \
	    if [ -s $$object ] && [ -z "$$(find crates.txt crates/*/{src,specs,proofs} -newer $$object -print -quit 2> /dev/null)" ]; then \
	        gcc -static -s -o $(made)/bin/$$it $$object "$$(dirname "$$(rt doc)")"/c/{libos_c.a,liblibc_c.a} || exit 1; \
	    else \
	        echo "left out: $$it, of which no object file is there that is not older than the sources"; \
	    fi; \
	done

install: library programs
	install -d $(to)/{include,bin,lib/pkgconfig,share/maple/{examples,rust/src},share/man/man1,share/bash-completion/completions}
	install -m 644 include/*.h $(to)/include
	install -m 644 $(made)/libmaple{,_debug}.a $(to)/lib
	install $(made)/libmaple.so.$(version) $(to)/lib
	ln -sf libmaple.so.$(version) $(to)/lib/$(soname)
	ln -sf $(soname) $(to)/lib/libmaple.so
	sed 's/@VERSION@/$(version)/' maple.pc.in > $(to)/lib/pkgconfig/maple.pc
	[ -z "$$(ls $(made)/bin)" ] || install $(made)/bin/* $(to)/bin
	install -m 644 docs/mtreplay.1 $(to)/share/man/man1
	install -m 644 docs/mtreplay.bash $(to)/share/bash-completion/completions/mtreplay
	install -m 644 LICENSE-MIT LICENSE-APACHE $(to)/share/maple
	install -m 644 examples/c/* $(to)/share/maple/examples
	install -m 644 rust/maple/{Cargo.toml,build.rs,README.md} $(to)/share/maple/rust
	install -m 644 rust/maple/src/*.rs $(to)/share/maple/rust/src
