# make            proves the library and the programs and builds them
# make install    puts archive, header, pkg-config file, programs and their manual page under PREFIX
# make uninstall  takes these files away again
# make check      the gate: all proofs, all wrong programs, all tests
# PREFIX is /usr/local unless named; DESTDIR, if named, stands before it, for who makes a package.
# x86-64 Linux only. A build needs the Rattle toolchain (rt); to install what is built doesn't.
PREFIX = /usr/local
DESTDIR =
prefix := $(shell realpath -ms "$(PREFIX)")
root := $(DESTDIR)$(prefix)
man := $(root)/share/man/man1
libexec := $(root)/libexec/vedrogne
version := $(shell sed -n 's/^.define VEDROGNE_VERSION "\(.*\)"/\1/p' include/vedrogne.h)
programs = report tidy radios

all:
	@for what in archive $(programs); do tools/build make $$what || exit; done

install: all
	install -d "$(root)/lib/pkgconfig" "$(root)/include" "$(root)/bin" "$(libexec)" "$(man)"
	install -m 644 target/staticlib/libvedrogne.a "$(root)/lib"
	install -m 644 include/vedrogne.h "$(root)/include"
	sed 's|@PREFIX@|$(prefix)|; s|@VERSION@|$(version)|' tools/vedrogne.pc.in | \
	    install -m 644 /dev/stdin "$(root)/lib/pkgconfig/vedrogne.pc"
	install -m 755 tools/command $(programs:%=target/bin/%_program) "$(libexec)"
	sed 's|@VERSION@|$(version)|' docs/vedrogne.1 | install -m 644 /dev/stdin "$(man)/vedrogne.1"
	for what in $(programs); do \
	    sed "s|@WHAT@|$$what|g" tools/installed.in | install -m 755 /dev/stdin "$(root)/bin/vedrogne-$$what" && \
	    echo .so man1/vedrogne.1 | install -m 644 /dev/stdin "$(man)/vedrogne-$$what.1" || exit; \
	done

uninstall:
	rm -f "$(root)/lib/libvedrogne.a" "$(root)/include/vedrogne.h" "$(root)/lib/pkgconfig/vedrogne.pc"
	rm -f $(programs:%="$(root)/bin/vedrogne-%") "$(man)/vedrogne.1" $(programs:%="$(man)/vedrogne-%.1")
	rm -f "$(libexec)/command" $(programs:%="$(libexec)/%_program")
	[ ! -d "$(libexec)" ] || rmdir "$(libexec)"

# the gate runs make too, which isn't to take itself for a part of this one
check:
	env -u MAKEFLAGS -u MAKELEVEL -u MFLAGS .ci/run

.PHONY: all install uninstall check
