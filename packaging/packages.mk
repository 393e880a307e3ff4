# Packages of what the Makefile builds: for Python, R and Debian, and the source archive.

PYTHON ?= python3
PACKAGES = target/packages
STATION_ARCHIVE = $(or $(STATION_LIB),target/staticlib/libstation.a)

.PHONY: wheel check-python check-r deb check-deb dist check-dist

wheel: library explain
	mkdir -p target
	cd python && NUYARDI_LIBRARY="$(abspath $(SHARED))" PYTHONPATH=backend $(PYTHON) -B -c \
	    'import nuyardi_build; print("target/" + nuyardi_build.build_wheel("../target"))'

check-python: library explain
	cd python && NUYARDI_LIBRARY="$(abspath $(SHARED))" $(PYTHON) -B -m unittest -v

# R CMD check of the package for R, over the library as it is installed; it uses jsonlite if that is installed, and leaves out the manual and
# the vignette without pdflatex.
RSTAGE = $(abspath target/r)
LATEX = $(shell command -v pdflatex 2>/dev/null)
check-r: library explain
	command -v R >/dev/null || { echo "R is not installed" >&2; exit 1; }
	rm -rf $(RSTAGE) && mkdir -p $(RSTAGE)
	$(MAKE) --no-print-directory -s install-shared install-dev PREFIX=$(RSTAGE)/prefix DESTDIR=
	cd $(RSTAGE) && export NUYARDI_EXPLAIN_LIBRARY="$(abspath $(wildcard $(EXPLAIN)))" PKG_CONFIG_PATH=$(RSTAGE)/prefix/lib/pkgconfig _R_CHECK_FORCE_SUGGESTS_=false R_RD4PDF=times,hyper \
	    && R CMD build $(if $(LATEX),,--no-build-vignettes) $(CURDIR)/R/nuyardi && R CMD check $(if $(LATEX),,--no-manual --ignore-vignettes) nuyardi_*.tar.gz
	$(if $(LATEX),,@echo "pdflatex is not installed: the manual and the vignette were left out")
	R_LIBS=$(RSTAGE)/nuyardi.Rcheck Rscript hosts/R/license.R examples/worked.txt

deb: all
	mkdir -p $(PACKAGES)
	tools/deb $(COMMAND) $(LIBRARY) $(SHARED) $(EXPLAIN) $(PACKAGES)

check-deb: deb
	tools/check-deb $(PACKAGES)

dist: library
	tools/dist "$(STATION_ARCHIVE)" $(LIBRARY) $(SHARED)

check-dist: dist
	tools/check-dist target/nuyardi-$(VERSION).tar.gz "$(STATION_ARCHIVE)"
