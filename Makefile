# make                      builds the command and the libraries; proves what is not proved yet
# make check                the gate: every proof, every must-fail edit, every test
# make install PREFIX=DIR   builds and installs (DESTDIR for packages); make uninstall removes it again
# make index                target/INDEX.md: each sentence of the papers, its definitions, laws and code
# make soak                 compares the library with the model on 10 million texts, and on a tenth of that each with stars and in counts (TEXTS=N for another number)
# make same-bytes           builds libstation.a in two folders and compares the two
# make from-source          proves soundness, the claim, in one run from sources alone, with nothing taken from a built logic or an earlier check
# make interpreted          the compiled calls beside the kit's interpreter
# make wheel                the Python package with the shared library inside; make check-python tests it
# make check-r              R CMD check of the package for R, if R is installed
# make deb                  Debian packages of the command and the libraries; make check-deb installs and removes them in a test folder
# make dist                 the source archive, with the checksums of the proved library; make check-dist unpacks it and compares them
# make mutants              how many wrong definitions the examples refuse
#
# STATION_LIB names an existing libstation.a: then nothing is proved here. A relative path is one from this folder.

PREFIX ?= /usr/local
VERSION := $(shell cat VERSION)
# The first number of the version, which is also that of the soname.
MAJOR := $(firstword $(subst ., ,$(VERSION)))

bindir = $(PREFIX)/bin
libdir = $(PREFIX)/lib
includedir = $(PREFIX)/include
datadir = $(PREFIX)/share
mandir = $(datadir)/man
docdir = $(datadir)/doc/nuyardi
# Where zsh looks for completions; a package for Debian has another folder.
zshdir = $(datadir)/zsh/site-functions
# The Rust crate, scripts, host programs and the editors' files.
owndir = $(datadir)/nuyardi
cratedir = $(owndir)/rust/host

COMMAND ?= rust/target/release/station
LIBRARY ?= target/libnuyardi.a
SHARED ?= target/libnuyardi.so
# The library of explanations: built if its crate exists, installed if it is built.
EXPLAIN ?= rust/target/release/libnuyardi_explain.so
INSTALL ?= install
CARGO ?= cargo

# The builds run in other folders.
ifneq ($(STATION_LIB),)
override STATION_LIB := $(shell realpath -m -- "$(STATION_LIB)")
export STATION_LIB
endif

.PHONY: all library explain command check install install-files install-command install-shared install-dev uninstall index soak same-bytes from-source interpreted mutants

all: library explain command

library:
ifdef STATION_LIB
	mkdir -p target
	tools/c-library "$(STATION_LIB)" $(LIBRARY)
else
	tools/prove-library
	tools/c-library target/staticlib/libstation.a $(LIBRARY)
endif
	tools/shared-library $(LIBRARY) $(SHARED)

explain: library
	$(if $(wildcard rust/explain-c),cd rust && $(CARGO) build --release --offline -p explain-c)

command: library
	cd rust && $(CARGO) build --release --offline -p cli

check:
	.ci/run

install: all
	$(MAKE) install-files

# These only copy what was built before.
install-files: install-command install-shared install-dev

# The command, the documents and the editors' files.
install-command:
	$(INSTALL) -D -m 755 $(COMMAND) "$(DESTDIR)$(bindir)/station"
	$(INSTALL) -d "$(DESTDIR)$(mandir)/man1" "$(DESTDIR)$(datadir)/bash-completion/completions"
	$(INSTALL) -d "$(DESTDIR)$(zshdir)" "$(DESTDIR)$(datadir)/fish/vendor_completions.d"
	$(COMMAND) man >"$(DESTDIR)$(mandir)/man1/station.1"
	$(COMMAND) completions bash >"$(DESTDIR)$(datadir)/bash-completion/completions/station"
	$(COMMAND) completions zsh >"$(DESTDIR)$(zshdir)/_station"
	$(COMMAND) completions fish >"$(DESTDIR)$(datadir)/fish/vendor_completions.d/station.fish"
	$(INSTALL) -d "$(DESTDIR)$(docdir)/papers"
	$(INSTALL) -m 644 README.md docs/*.md "$(DESTDIR)$(docdir)"
	$(INSTALL) -m 644 docs/papers/*.md "$(DESTDIR)$(docdir)/papers"
	for file in $$(find editors -type f); do $(INSTALL) -D -m 644 "$$file" "$(DESTDIR)$(owndir)/$$file" || exit 1; done

# The shared libraries, where a program that is linked with them finds them.
install-shared:
	$(INSTALL) -D -m 644 $(SHARED) "$(DESTDIR)$(libdir)/libnuyardi.so.$(VERSION)"
	ln -sf libnuyardi.so.$(VERSION) "$(DESTDIR)$(libdir)/libnuyardi.so.$(MAJOR)"
	$(if $(wildcard $(EXPLAIN)),$(INSTALL) -m 644 $(EXPLAIN) "$(DESTDIR)$(libdir)/libnuyardi_explain.so")

# Fills in a file of packaging/ that ends in .in.
fill = sed -e 's|@PREFIX@|$(PREFIX)|' -e 's|@LIBDIR@|$(libdir)|' -e 's|@INCLUDEDIR@|$(includedir)|' \
    -e "s|@HEADERS@|$$(realpath -m --relative-to="$(libdir)" "$(includedir)")|" -e 's|@VERSION@|$(VERSION)|' -e 's|@MAJOR@|$(MAJOR)|'

# What a program is built with: the static library, the header, pkg-config, CMake and the Rust crate; host programs and scripts.
install-dev:
	$(INSTALL) -D -m 644 $(LIBRARY) "$(DESTDIR)$(libdir)/libnuyardi.a"
	ln -sf libnuyardi.so.$(MAJOR) "$(DESTDIR)$(libdir)/libnuyardi.so"
	$(INSTALL) -D -m 644 include/station.h "$(DESTDIR)$(includedir)/station.h"
	$(if $(wildcard $(EXPLAIN)),$(INSTALL) -m 644 include/nuyardi_explain.h "$(DESTDIR)$(includedir)/nuyardi_explain.h")
	$(INSTALL) -d "$(DESTDIR)$(libdir)/pkgconfig" "$(DESTDIR)$(libdir)/cmake/nuyardi" "$(DESTDIR)$(cratedir)/src"
	for name in nuyardi nuyardi-static $(if $(wildcard $(EXPLAIN)),nuyardi-explain); do \
	    $(fill) packaging/pkgconfig/$$name.pc.in >"$(DESTDIR)$(libdir)/pkgconfig/$$name.pc" || exit 1; done
	for name in nuyardi-config nuyardi-config-version; do \
	    $(fill) packaging/cmake/$$name.cmake.in >"$(DESTDIR)$(libdir)/cmake/nuyardi/$$name.cmake" || exit 1; done
	for file in $$(find examples hosts -type f ! -path '*/target/*'); do $(INSTALL) -D -m 644 "$$file" "$(DESTDIR)$(owndir)/$$file" || exit 1; done
	$(INSTALL) -m 644 rust/host/build.rs "$(DESTDIR)$(cratedir)"
	$(INSTALL) -m 644 rust/host/src/*.rs "$(DESTDIR)$(cratedir)/src"
	sed -e 's/^version.workspace = true/version = "$(VERSION)"/' -e '/^\[dev-dependencies\]/,$$d' rust/host/Cargo.toml >"$(DESTDIR)$(cratedir)/Cargo.toml"
	tools/limits >"$(DESTDIR)$(cratedir)/limits.rs"

uninstall:
	rm -f "$(DESTDIR)$(bindir)/station" "$(DESTDIR)$(includedir)/station.h" "$(DESTDIR)$(mandir)/man1/station.1"
	rm -f "$(DESTDIR)$(libdir)/libnuyardi.a" "$(DESTDIR)$(libdir)/libnuyardi.so" "$(DESTDIR)$(libdir)/libnuyardi.so.$(MAJOR)"
	rm -f "$(DESTDIR)$(libdir)/libnuyardi.so.$(VERSION)" "$(DESTDIR)$(libdir)/libnuyardi_explain.so" "$(DESTDIR)$(includedir)/nuyardi_explain.h"
	rm -f "$(DESTDIR)$(libdir)/pkgconfig/nuyardi.pc" "$(DESTDIR)$(libdir)/pkgconfig/nuyardi-static.pc" "$(DESTDIR)$(libdir)/pkgconfig/nuyardi-explain.pc"
	rm -f "$(DESTDIR)$(datadir)/bash-completion/completions/station" "$(DESTDIR)$(zshdir)/_station"
	rm -f "$(DESTDIR)$(datadir)/fish/vendor_completions.d/station.fish"
	rm -rf "$(DESTDIR)$(libdir)/cmake/nuyardi" "$(DESTDIR)$(docdir)" "$(DESTDIR)$(owndir)"

index:
	mkdir -p target
	cd rust && $(CARGO) run --release --offline -q -p sources --example index >../target/INDEX.md
	@echo target/INDEX.md

# Each seed gives twenty texts.
TEXTS ?= 10000000
soak: library
	cd rust && $(CARGO) build --release --offline -p nuyardi --example compare
	rust/target/release/examples/compare 50000 $$(( $(TEXTS) / 20 ))
	rust/target/release/examples/compare 5000 $$(( $(TEXTS) / 200 )) starred
	rust/target/release/examples/compare 25000 $$(( $(TEXTS) / 40 )) counts

same-bytes:
	tools/same-bytes

from-source:
	tools/from-source

interpreted:
	tools/interpreted/run

include packaging/packages.mk

mutants:
	tools/mutants/run
