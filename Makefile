# make               proves and builds bin/tc
# make check         the quick checks, in a few minutes: doors, documents, trail, made pages, constants, exit numbers, examples, tapes and the station on bin/tc
# make gate          the gate (tools/check_sources, then rt ci): looks through the documents, proves every crate, tries the must-fail edits, runs tests and program
# make dist          tc-VERSION.tar.gz of the last commit, which builds, tests and installs by itself
# make deb           dist/tc-timecode_VERSION-1_amd64.deb, a Debian package of the built program and its tools
# make deb-library   the Debian packages of the library in lib/: libtc1, libtc-dev, python3-tc, and libltc-tc with its switch
# make binary        dist/tc-VERSION-x86_64-linux.tar.gz, with a script that installs it, for machines without the toolchain
# make lib           proves and builds the library: lib/libtc.a, lib/libtc.so.1 and lib/tc.pc, for include/tc.h, and
#                    lib/libltc-tc.so.11 for programs that are linked against libltc
# make install       program, manual pages, completions, documents and examples, under PREFIX (and DESTDIR, for packagers),
#                    and if make lib was run before, the library with its header and its Python; WITH_LIBRARY= leaves
#                    them out, as the packages do. Each target is looked at before the first is written: a file of another
#                    program is never replaced
# make install-strip the same, with the program stripped of its symbols
# make uninstall     takes away what install wrote down, by name and sum
# make stage         lays out below DESTDIR what install would put there, looks at nothing and writes nothing down
#
# iproute2 has a program of the name tc too. Where root or users have another tc on their paths, install takes the name tcode for
# this one, its tools, manual pages and completions, and says so; PROGRAM=tc insists, and PROGRAM=NAME gives another name. With
# DESTDIR the name is tc, since the machine for which it is meant can't be looked at. The notes on standard error begin with
# "tc:" under each name, and the help names the manual of tc.
PREFIX ?= /usr/local
ifeq ($(origin PROGRAM), undefined)
CHOSEN := yes
PROGRAM := $(if $(DESTDIR),tc,$(shell packaging/parts/name --quiet "$(PREFIX)/bin"))
endif
BINDIR = $(PREFIX)/bin
MANDIR = $(PREFIX)/share/man
BASHDIR = $(PREFIX)/share/bash-completion/completions
ZSHDIR = $(PREFIX)/share/zsh/site-functions
FISHDIR = $(PREFIX)/share/fish/vendor_completions.d
DOCDIR = $(PREFIX)/share/doc/$(PROGRAM)
# The library, its header, what pkg-config reads, and the place of tc.py: where Debian's python3 looks below /usr/local.
LIBRARYDIR = $(PREFIX)/lib
INCLUDEDIR = $(PREFIX)/include
PKGCONFIGDIR = $(LIBRARYDIR)/pkgconfig
PYTHON = $(shell python3 -c 'import sys; print("python%d.%d" % sys.version_info[:2])' 2> /dev/null || echo python3)
PYTHONDIR ?= $(LIBRARYDIR)/$(PYTHON)/dist-packages
WITH_LIBRARY ?= $(wildcard lib/libtc.a)
# The tools for tapes, archives and live code, as PROGRAM-tape, PROGRAM-archive and PROGRAM-live, and their parts.
LIBDIR = $(PREFIX)/lib/$(PROGRAM)
# The ways to these from the programs and from the examples, whatever the prefix is.
TO_LIBDIR = $(shell realpath -m --relative-to="$(DOCDIR)/examples/tools" "$(LIBDIR)")
TO_LIBDIR_OF_BIN = $(shell realpath -m --relative-to="$(BINDIR)" "$(LIBDIR)")
INSTALL_PROGRAM = install -m 755

VERSION := $(shell cat VERSION)
DIST = tc-$(VERSION)

.PHONY: all binary check deb deb-library gate dist install install-strip lib show-libdir stage uninstall

all:
	./build

check:
	tools/check_sources
	@[ -x bin/tc ] || { echo "bin/tc is not built: run make first" >&2; exit 1; }
	tools/try_status
	tools/run_examples
	@if command -v rustc > /dev/null; then bench/cases 1000; else echo "bench/cases: not run, for want of rustc"; fi
	@if [ -e lib/libtc.so.1 ]; then tools/try_library; else echo "tools/try_library: not run: run make lib first"; fi
	@if [ -e lib/libltc-tc.so.11 ]; then tools/try_compat; else echo "tools/try_compat: not run: run make lib first"; fi
	tools/try_tapes
	tools/try_live

gate:
	.ci/run

lib:
	tools/make_library

dist:
	@[ -z "$$(git status --porcelain)" ] || { echo "what is not committed is left out:" >&2; git status --short >&2; }
	git archive --format=tar --prefix=$(DIST)/ HEAD | gzip -9n > $(DIST).tar.gz.part
	mv $(DIST).tar.gz.part $(DIST).tar.gz

deb:
	packaging/deb

deb-library:
	packaging/deb_library

binary:
	packaging/binary

stage:
	@[ -n "$(DESTDIR)" ] || { echo "stage: DESTDIR names the folder that stands for /" >&2; exit 2; }
	@[ -x bin/tc ] || { echo "bin/tc is not built: run make first" >&2; exit 1; }
	@PROGRAM="$(PROGRAM)" PREFIX="$(PREFIX)" BINDIR="$(BINDIR)" MANDIR="$(MANDIR)" BASHDIR="$(BASHDIR)" ZSHDIR="$(ZSHDIR)" \
	    FISHDIR="$(FISHDIR)" DOCDIR="$(DOCDIR)" LIBDIR="$(LIBDIR)" TO_LIBDIR="$(TO_LIBDIR)" TO_LIBDIR_OF_BIN="$(TO_LIBDIR_OF_BIN)" \
	    LIBRARYDIR="$(LIBRARYDIR)" INCLUDEDIR="$(INCLUDEDIR)" PKGCONFIGDIR="$(PKGCONFIGDIR)" PYTHONDIR="$(PYTHONDIR)" \
	    WITH_LIBRARY="$(WITH_LIBRARY)" INSTALL_PROGRAM="$(INSTALL_PROGRAM)" packaging/stage "$(DESTDIR)"

# Where the name was chosen and is tcode, what an earlier version put below the same prefix as tc makes way.
install:
	@[ -z "$(CHOSEN)" ] || [ -n "$(DESTDIR)" ] || packaging/parts/name "$(BINDIR)" > /dev/null
	@room=$$(mktemp -d) && trap 'rm -rf "$$room"' EXIT && $(MAKE) -s stage PROGRAM=$(PROGRAM) DESTDIR="$$room/tree" && \
	packaging/parts/place "$$room/tree" "$(DESTDIR)" "" "$(LIBDIR)" "$(DOCDIR)" && \
	echo "installed $$(bin/tc version) as $(PROGRAM) below $(DESTDIR)$(PREFIX)" && \
	if [ -n "$(CHOSEN)" ] && [ $(PROGRAM) = tcode ] && [ -e "$(BINDIR)/tc-tape" ]; then \
	    $(MAKE) -s stage PROGRAM=tc DESTDIR="$$room/before" WITH_LIBRARY= && \
	    packaging/parts/take_away "" "$(PREFIX)/lib/tc" "" "$(PREFIX)/share/doc/tc" "$$room/before" && \
	    echo "what was installed before as tc is taken away"; \
	fi

install-strip:
	$(MAKE) INSTALL_PROGRAM="install -s -m 755" install

# That of the name which is given, and else of each under which it was installed.
uninstall:
	@gone=; for name in $(if $(CHOSEN),tc tcode,$(PROGRAM)); do \
	    lib=$$($(MAKE) -s --no-print-directory show-libdir PROGRAM=$$name) || exit; \
	    [ -e "$(DESTDIR)$$lib/INSTALLED" ] || continue; \
	    packaging/parts/take_away "$(DESTDIR)" "$$lib" || exit; \
	    echo "$$name is taken away below $(DESTDIR)$(PREFIX)"; gone=yes; \
	done; [ -n "$$gone" ] || { echo "uninstall: no tc that make install wrote down is below $(DESTDIR)$(PREFIX)" >&2; exit 1; }

show-libdir:
	@echo "$(LIBDIR)"
