# Installs the program, where it is built, and the tools, manual pages, completion, examples and pages.
#
#     make install [PREFIX=/usr/local] [DESTDIR=] [PROGRAM=] [LIBRARY=] [PYTHON=]
#     make uninstall [PREFIX=/usr/local] [DESTDIR=]
#     make deb [PROGRAM=] [LIBRARY=] [MAINTAINER=]
#     make library
#     make libraries
#
# PROGRAM is the built program: that which ./fttcan where names, where nothing is said. Without one all else is
# installed. LIBRARY is the folder of the built library for C, which `make library` proves and builds; without one none
# is installed. DESTDIR is put in front of each path. PYTHON runs the tools.

PREFIX = /usr/local
DESTDIR =
PROGRAM = $(shell ./fttcan where 2>/dev/null)
LIBRARY = $(wildcard out/library)
PYTHON = /usr/bin/env python3
MAINTAINER = the maintainers of fttcan <maintainers@users.noreply.loqindi.example>

.PHONY: all install uninstall deb library libraries
all:
	@echo "make install, make uninstall, make deb or make library: the head of the Makefile has their words. ./fttcan builds the program"

install:
	@program='$(PROGRAM)'; [ -n "$$program" ] || \
		echo "no program is built: any command of ./fttcan builds it, or PROGRAM=PATH names one; the rest is installed" >&2; \
	python3 -B tools/package/place.py install "$(DESTDIR)" "$(PREFIX)" --program "$$program" --library "$(LIBRARY)" --python "$(PYTHON)"

uninstall:
	@python3 -B tools/package/place.py uninstall "$(DESTDIR)" "$(PREFIX)"

deb:
	@python3 -B tools/package/debian.py --program "$(PROGRAM)" --library "$(LIBRARY)" --maintainer "$(MAINTAINER)"

library:
	@tools/c-library --build

# For the processors of a release, into out/library-NAME.
libraries:
	@tools/c-library --all --build
