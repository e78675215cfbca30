# Builds, tests and installs the reader: a thin cover over rt, which proves and compiles the library. Nothing is fetched, and nothing
# is installed but by "make install".
PREFIX ?= /usr/local
DESTDIR ?=
CFLAGS ?= -O2
FUZZ_SECONDS ?= 60

LIBRARY := target/staticlib/libsgml.a
PROGRAMS := target/sgml target/judge target/controller
# the command, and what it is made of that other programs can use: the library of messages
COMMAND := command/sgml.c command/print.c
MESSAGES := $(filter-out $(COMMAND),$(wildcard command/*.c))
MESSAGES_LIBRARY := target/libsgml_messages.a
COMPILE = $(CC) -std=c99 -Wall -Wextra -pedantic $(CPPFLAGS) $(CFLAGS) -Iinclude
VERSION := $(shell sed -n 's/^.define SGML_VERSION "\(.*\)"/\1/p' include/sgml.h)
# PREFIX from the root on; it may have a space in it, which abspath would take for the end of a name
WHOLE_PREFIX = $(if $(filter /%,$(firstword $(PREFIX))),,$(CURDIR)/)$(PREFIX)
# what "make install" puts under PREFIX, and "make uninstall" takes away
INSTALLED := bin/sgml include/sgml.h include/sgml_messages.h include/sgml_position.h lib/libsgml.a lib/libsgml_messages.a \
  lib/pkgconfig/sgml.pc share/man/man1/sgml.1

all: $(PROGRAMS) $(MESSAGES_LIBRARY)

# rt proves again what has changed, and only that. From nothing this takes a while: .ci/progress says how far it is. "make library" asks
# rt whatever the files' times say.
$(LIBRARY): crates.txt $(shell find crates -type f -not -path '*/out/*')
	$(MAKE) library

library:
	@.ci/progress sgml_c rt lib
	@mkdir -p $(dir $(LIBRARY))
	@install -m 644 crates/sgml_c/out/libsgml_c.a $(LIBRARY)

target/sgml: $(COMMAND) $(wildcard command/*.h include/*.h) $(MESSAGES_LIBRARY) $(LIBRARY)
	$(COMPILE) $(LDFLAGS) $(COMMAND) $(MESSAGES_LIBRARY) $(LIBRARY) -o $@

target/messages/%.o: command/%.c $(wildcard command/*.h include/*.h)
	mkdir -p $(@D)
	$(COMPILE) -c $< -o $@

# One object, of which only the names that begin with sgml_ are seen outside.
$(MESSAGES_LIBRARY): $(MESSAGES:command/%.c=target/messages/%.o)
	$(LD) -r $^ -o target/sgml_messages.o
	objcopy --wildcard --keep-global-symbol='sgml_*' target/sgml_messages.o
	rm -f $@
	$(AR) rcs $@ target/sgml_messages.o

target/judge: examples/judge.c include/sgml.h $(LIBRARY)
	$(COMPILE) $(LDFLAGS) $< $(LIBRARY) -o $@

target/controller: examples/controller.c examples/position.h include/sgml_position.h include/sgml.h $(LIBRARY)
	$(COMPILE) $(LDFLAGS) $< $(LIBRARY) -o $@

# The tests alone, on what is proved and built. The program, which rt runs once it is built, finds no files in its crate and says so.
check: all
	@.ci/progress sgml_events rt check
	cd crates/sgml_events && rt run 2>/dev/null
	for t in tests/*.sh; do echo "== $$t"; INSTALL= BUILT=yes bash "$$t" || exit 1; done

# The gate: everything from nothing, the edits that must fail, and all the tests.
test:
	INSTALL= .ci/run

fuzz: $(LIBRARY)
	tests/fuzz/run $(FUZZ_SECONDS)

install: all
	install -d $(addprefix "$(DESTDIR)$(PREFIX)"/,bin include lib/pkgconfig share/man/man1)
	install -m 755 target/sgml "$(DESTDIR)$(PREFIX)/bin/sgml"
	install -m 644 include/sgml.h "$(DESTDIR)$(PREFIX)/include/sgml.h"
	install -m 644 include/sgml_messages.h include/sgml_position.h "$(DESTDIR)$(PREFIX)/include"
	install -m 644 $(LIBRARY) "$(DESTDIR)$(PREFIX)/lib/libsgml.a"
	install -m 644 $(MESSAGES_LIBRARY) "$(DESTDIR)$(PREFIX)/lib/libsgml_messages.a"
	install -m 644 command/sgml.1 "$(DESTDIR)$(PREFIX)/share/man/man1/sgml.1"
	sed 's|@PREFIX@|$(WHOLE_PREFIX)|; s|@VERSION@|$(VERSION)|' command/sgml.pc.in >target/sgml.pc
	install -m 644 target/sgml.pc "$(DESTDIR)$(PREFIX)/lib/pkgconfig/sgml.pc"

uninstall:
	rm -f $(addprefix "$(DESTDIR)$(PREFIX)"/,$(INSTALLED))

# Everything built, the proofs that rt remembers too.
clean:
	rm -rf target crates/*/out

.PHONY: all library check test fuzz install uninstall clean
