# What the modules of SQLite and DuckDB share. Each Makefile says how its module is built and tested. The targets are those
# of ../Makefile and `make check`, which tests the module as it was built. PYTHON runs the tests.
prefix = /usr/local
libdir = $(prefix)/lib
CFLAGS = -O2
PYTHON = python3

sources = functions.c ../../c/base62.c

all: $(MODULE)

$(MODULE): $(sources) ../common.h ../../c/base62.h

install: $(MODULE)
	mkdir -p '$(folder)' '$(DESTDIR)$(docdir)'
	install -m 755 $(MODULE) '$(folder)'
	install -m 644 ../LICENSE '$(DESTDIR)$(docdir)'

uninstall:
	rm -f '$(folder)/$(MODULE)' '$(DESTDIR)$(docdir)/LICENSE'
	rmdir '$(folder)' '$(DESTDIR)$(docdir)' '$(DESTDIR)$(prefix)/share/doc' 2>/dev/null || :

check: tested = $(CURDIR)/$(MODULE)
check: $(MODULE)
installcheck: tested = $(folder)/$(MODULE)

.PHONY: all install uninstall check installcheck clean
