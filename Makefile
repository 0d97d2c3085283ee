# The library for C.
#
#   make                    builds the archive, where it is missing: proves it first, which takes some minutes
#   make install            puts archive, header and pkg-config file below PREFIX; DESTDIR stands before it
#   make uninstall          takes the three away again
#   make example            builds and runs examples/daemon.c
VERSION = 0.1.0
PREFIX = /usr/local
DESTDIR =
CC = gcc
CFLAGS = -std=c99 -Wall -Wextra -Werror -O2

archive = target/staticlib/libzubrelets_c.a
lib = $(DESTDIR)$(PREFIX)/lib
include = $(DESTDIR)$(PREFIX)/include
example = target/c/daemon

.PHONY: all install uninstall example
all: $(archive)

# No prerequisites: `rt` knows when what it has proved is out of date, and .ci/c asks it.
$(archive):
	tools/build zubrelets_c

install: $(archive)
	install -d "$(lib)/pkgconfig" "$(include)"
	install -m 644 $(archive) "$(lib)"
	install -m 644 include/zubrelets.h "$(include)"
	sed -e 's|@PREFIX@|$(PREFIX)|' -e 's|@VERSION@|$(VERSION)|' zubrelets.pc.in > "$(lib)/pkgconfig/zubrelets.pc"
	chmod 644 "$(lib)/pkgconfig/zubrelets.pc"

uninstall:
	rm -f "$(lib)/libzubrelets_c.a" "$(include)/zubrelets.h" "$(lib)/pkgconfig/zubrelets.pc"

example: $(example)
	$(example) tables/cold-store.table

$(example): examples/daemon.c include/zubrelets.h $(archive)
	mkdir -p $(@D)
	$(CC) $(CFLAGS) -Iinclude $< $(archive) -o $@
