# Installs the workbench under a prefix, and takes it away again; `make` alone says how, and does nothing.
#
# DESTDIR is put before the prefix, for packages. tools/install says the rest.
PREFIX ?= /usr/local
DESTDIR ?=

.PHONY: help install uninstall
.DEFAULT_GOAL := help

help:
	@echo 'make install PREFIX=DIR       the command hithwelor, its man page, completions and examples; without PREFIX'
	@echo '                              under /usr/local'
	@echo 'make uninstall PREFIX=DIR     takes away what was installed there'
	@echo
	@echo 'Nothing has to be built first: ./try answers at once (README.md).'

NEEDS_PYTHON = command -v python3 >/dev/null || \
	{ echo 'make: this needs Python 3.9 or later; without it ./hithwelor and ./try answer here, by Node.js' >&2; exit 1; }

install:
	@$(NEEDS_PYTHON)
	@tools/install --prefix "$(PREFIX)" --destdir "$(DESTDIR)"

uninstall:
	@$(NEEDS_PYTHON)
	@tools/install --prefix "$(PREFIX)" --destdir "$(DESTDIR)" --uninstall
