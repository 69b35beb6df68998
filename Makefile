# make             proves and builds the program, where it is not there yet
# make install     installs the proved program, the client, the man page and the program's identity under PREFIX
# make uninstall   removes what make install installed under PREFIX
# make deb         makes a Debian package of the same in build/
# make check-deb   installs the package in a Debian 12 of its own and solves there; it needs root, debootstrap and the network
# make test        runs the merge gate: the proofs, the tests and wrong bodies, the examples of the documents and the client's tests
# make clean       removes build/
# make help        prints these lines
#
# PREFIX is /usr/local without it. DESTDIR is put before each path, as packagers want it. PROGRAM names a program that was built elsewhere.

PREFIX ?= /usr/local
DESTDIR ?=
PYTHON ?= python3
BUILT := crates/solver_cli/out/solver_cli
PROGRAM ?= $(BUILT)
# The folder in which Python under PREFIX looks for modules, or Debian's folder if there is none.
PYTHONDIR ?= $(shell $(PYTHON) -c 'import site, sys; p = sys.argv[1]; print(next((d for d in site.getsitepackages() if d.startswith(p + "/")), p + "/lib/python3/dist-packages"))' '$(PREFIX)')

BIN := $(DESTDIR)$(PREFIX)/bin
MAN := $(DESTDIR)$(PREFIX)/share/man/man1
DOC := $(DESTDIR)$(PREFIX)/share/doc/hammockdove
MODULES := $(DESTDIR)$(PYTHONDIR)
SOURCES := $(shell cd python && find hammockdove -name '*.py' -o -name py.typed)
# Documents, examples and the tools that users run lie as in the checkout, so that links and paths lead somewhere.
DOCUMENTS := README.md $(wildcard docs/*.md docs/calling/*.md docs/img/*.svg) tools/table.py tools/reorder.py

.PHONY: all program install uninstall deb check-deb test clean help

all: program

# The launcher proves and builds what is not current. It never answers `resume` without proofs, and `resume` without a file has status 4.
program:
ifeq ($(PROGRAM),$(BUILT))
	@./hammockdove resume </dev/null >/dev/null; test $$? -eq 4 || { echo "make: there is no proved program; make PROGRAM=FILE takes one that was built elsewhere" >&2; exit 1; }
endif
	@test -f $(PROGRAM) -a -x $(PROGRAM) || { echo "make: $(PROGRAM) is no program that can be run" >&2; exit 1; }

install: program
	install -d $(BIN) $(MAN) $(DOC)
	rm -rf $(DOC)/cluster
	install -m 755 $(PROGRAM) $(BIN)/hammockdove
	$(PYTHON) tools/man_page.py docs/USING.md README.md | gzip -9n > $(MAN)/hammockdove.1.gz
	cp --parents $(DOCUMENTS) $(DOC)/
	cp -r examples $(DOC)/
	ln -s examples/cluster $(DOC)/cluster
	tools/package/identity $(PROGRAM) > $(DOC)/IDENTITY
	chmod -R u+w,a+rX $(DOC)
	@set -e; for file in $(SOURCES); do install -D -m 644 python/$$file $(MODULES)/$$file; done
	@echo "installed $(BIN)/hammockdove, and the client in $(MODULES); if Python does not look there, add it to PYTHONPATH"

uninstall:
	rm -f $(BIN)/hammockdove $(MAN)/hammockdove.1.gz
	rm -rf $(DOC) $(MODULES)/hammockdove

deb: program
	tools/package/deb $(PROGRAM)

check-deb: deb
	tools/package/check-deb build/hammockdove_*.deb

test:
	.ci/run

clean:
	rm -rf build

help:
	@sed -n '/^#/!q; s/^# \{0,1\}//p' Makefile
