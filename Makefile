# Installs the program, once ./fabric prove or ./test full has proved and built it; in an archive of tools/release it is built:
#     make install PREFIX=/usr/local DESTDIR=
#     make uninstall PREFIX=/usr/local DESTDIR=
# tools/install says what goes where.
PREFIX = /usr/local
DESTDIR =

all:
	@tools/install --check

install:
	@tools/install '$(DESTDIR)$(PREFIX)'

uninstall:
	@tools/install --remove '$(DESTDIR)$(PREFIX)'

.PHONY: all install uninstall
