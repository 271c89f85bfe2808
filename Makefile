# make              proves the library and builds the command, where they are not built, and links the shared library
# make install      puts them in place below PREFIX, with the header, the pkg-config file, the man pages and the completions
# make uninstall    removes what make install puts in place
# make check        passes the tests
# What is built needs no kit and no cargo to be installed. DESTDIR goes before every path, for who makes packages.

PREFIX = /usr/local
BINDIR = $(PREFIX)/bin
LIBDIR = $(PREFIX)/lib
INCLUDEDIR = $(PREFIX)/include
MANDIR = $(PREFIX)/share/man
export PREFIX BINDIR LIBDIR INCLUDEDIR MANDIR DESTDIR

archive = target/staticlib/libxemdulba.a
library = target/install/libxemdulba.so

all: $(library)

# The archive is new only if something was proved.
$(archive): always
	@cli/build

# The linker refuses code that is not position independent (-z text) and names that no library has (-z defs).
$(library): $(archive) Makefile
	@mkdir -p target/install
	$(CC) $(LDFLAGS) -shared -Wl,-soname,libxemdulba.so.1 -Wl,-z,text -Wl,-z,defs -o $@.new \
	    -Wl,--whole-archive $(archive) -Wl,--no-whole-archive
	@mv $@.new $@

install: all
	@share/install place

uninstall:
	@share/install remove

check:
	./test

always:

.PHONY: all install uninstall check always
