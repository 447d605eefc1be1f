# make: proves and builds the library and the programs, and puts them into dist/ with the header.
# make install PREFIX=/usr/local: installs dist/, the manual, the examples and samples; DESTDIR= goes in front of every path.
# make package: a Debian package and a tar archive of what is installed, in dist/, for people without the prover.
# make list IN=samples/line1.cap: lists the telegrams of a capture.
# make replay IN=samples/school.log: runs the desk on a recorded log, and prints what it did (docs/REPLAY.md).
# make scene IN=FILE: runs a script of calls (docs/SCENES.md).
# make demo LINE=1 SEED=33 SECONDS=90: shows both ends over a simulated line; LOG=FILE keeps a log of it, PANEL=idle has the panel do nothing.
# make try: runs the two C examples against each other over pseudo-terminals.
# make check: the gate.
# make soak FACTOR=20: compares the library with the second version, 20 times as much as the gate does.
# make emulated CHUNKS=3: the archive for x86-64 tested in an emulator, on a machine that is not x86-64; it installs Debian packages.
# make bench: measures how fast the library is.
# make stack: measures the stack that each call of the library needs.
# make help: these lines.
LINE ?= 1
SEED ?= 33
SECONDS ?= 90
FACTOR ?= 20
CHUNKS ?= 3
# only words of the command line: a file that the environment names is not overwritten
LOG =
PANEL =

PREFIX ?= /usr/local
BINDIR ?= $(PREFIX)/bin
LIBEXECDIR ?= $(PREFIX)/libexec
LIBDIR ?= $(PREFIX)/lib
INCLUDEDIR ?= $(PREFIX)/include
MANDIR ?= $(PREFIX)/share/man
DOCDIR ?= $(PREFIX)/share/doc/in656
INSTALL ?= install
CFLAGS ?= -O2
# where this puts what it builds
DIST = dist

# the header has the version
number = $(shell sed -n 's/^.define IN656_VERSION_$(1) \([0-9]*\)u$$/\1/p' include/in656.h)
VERSION := $(call number,MAJOR).$(call number,MINOR).$(call number,PATCH)
SONAME := libin656.so.$(call number,MAJOR)

SOURCES := $(shell find crates -name out -prune -o \( -name '*.rt' -o -name '*.antt' \) -print) crates.txt
MACHINE := $(shell uname -m)
# in656.pc for a prefix, a folder of libraries, one of headers, and what the linker is told so that the program finds the shared library there
PC = sed -e 's|@PREFIX@|$(1)|' -e 's|@LIBDIR@|$(2)|' -e 's|@INCLUDEDIR@|$(3)|' -e 's|@RPATH@|$(4)|' -e 's|@VERSION@|$(VERSION)|' include/in656.pc.in
comma := ,
RPATH = -Wl$(comma)-rpath$(comma)$${libdir}
# a folder by the prefix, where it is below it
under = $(patsubst $(PREFIX)/%,$${prefix}/%,$(1))

# where the build leaves what it makes (tools/build)
ARCHIVE := target/staticlib/libin656.a
PROGRAMS := target/bin
HOST := cargo run --offline --quiet --manifest-path host/Cargo.toml

# $(call need,COMMAND): stops with one line where the machine lacks a command
need = @command -v $(1) > /dev/null || { echo "make $@ needs $(1), which is not found" >&2; exit 2; }

.PHONY: all help check list replay demo scene input try soak emulated bench stack install package clean
# two proofs at once would write the same files; rt itself uses all processors
.NOTPARALLEL:
# exported, so that a name with spaces reaches the shell as one word
list: IN ?= samples/line1.cap
replay: IN ?= samples/school.log
export IN LOG

all: $(DIST)/libin656.a $(DIST)/$(SONAME) $(DIST)/in656.h $(DIST)/in656.pc $(DIST)/listing $(DIST)/replay $(DIST)/scenes

$(DIST)/listing $(DIST)/replay $(DIST)/scenes: $(DIST)/%: $(SOURCES)
	@tools/build check $*
	@mkdir -p $(DIST)
	@cp $(PROGRAMS)/$* $@

$(ARCHIVE): $(SOURCES)
	@tools/build archive in656
	@touch $@

$(DIST)/libin656.a: $(ARCHIVE)
	@mkdir -p $(DIST)
	@cp $< $@

$(DIST)/in656.h: include/in656.h
	@mkdir -p $(DIST)
	@cp $< $@

$(DIST)/in656.pc: include/in656.pc.in include/in656.h Makefile
	@mkdir -p $(DIST)
	@$(call PC,$${pcfiledir},$${prefix},$${prefix},$(RPATH)) > $@

$(DIST)/$(SONAME): $(DIST)/libin656.a
	$(call need,$(CC))
	$(CC) -shared -o $@ -Wl,-soname,$(SONAME) -Wl,--whole-archive $< -Wl,--no-whole-archive
	ln -sf $(SONAME) $(DIST)/libin656.so

$(DIST)/examples/%: examples/%.c examples/serial.c examples/show.c examples/serial.h examples/show.h $(DIST)/in656.h $(DIST)/libin656.a
	$(call need,$(CC))
	@mkdir -p $(DIST)/examples
	$(CC) -std=c99 -D_XOPEN_SOURCE=700 -Wall -Wextra -pedantic -Wconversion -Wcast-qual -Wwrite-strings $(CFLAGS) -I$(DIST) -o $@ $(filter %.c,$^) $(DIST)/libin656.a

try: $(DIST)/examples/try $(DIST)/examples/panel $(DIST)/examples/bench
	@$(DIST)/examples/try $(DIST)/examples/panel $(DIST)/examples/bench

install: all
	@$(INSTALL) -d "$(DESTDIR)$(INCLUDEDIR)" "$(DESTDIR)$(LIBDIR)/pkgconfig" "$(DESTDIR)$(MANDIR)/man1" "$(DESTDIR)$(MANDIR)/man3" "$(DESTDIR)$(MANDIR)/man7"
	@for program in listing replay scenes; do \
	  DESTDIR='$(DESTDIR)' INSTALL='$(INSTALL)' tools/install-program $(DIST)/$$program "$(BINDIR)" "$(LIBEXECDIR)" || exit; \
	done
	@$(INSTALL) -m 644 $(DIST)/libin656.a "$(DESTDIR)$(LIBDIR)"
	@$(INSTALL) -m 755 $(DIST)/$(SONAME) "$(DESTDIR)$(LIBDIR)" && ln -sf $(SONAME) "$(DESTDIR)$(LIBDIR)/libin656.so"
	@$(INSTALL) -m 644 include/in656.h "$(DESTDIR)$(INCLUDEDIR)"
	@$(call PC,$(PREFIX),$(call under,$(LIBDIR)),$(call under,$(INCLUDEDIR)),$(if $(filter /usr/lib /usr/lib/%,$(LIBDIR)),,$(RPATH))) > "$(DESTDIR)$(LIBDIR)/pkgconfig/in656.pc"
	@chmod 644 "$(DESTDIR)$(LIBDIR)/pkgconfig/in656.pc"
	@for page in man/*.[137]; do $(INSTALL) -m 644 $$page "$(DESTDIR)$(MANDIR)/man$${page##*.}" || exit; done
	@for file in README.md docs/REPLAY.md docs/RULES.md docs/SCENES.md examples/*.[ch] samples/*; do \
	  $(INSTALL) -D -m 644 $$file "$(DESTDIR)$(DOCDIR)/$$file" || exit; \
	done
	@echo "installed: $(DESTDIR)$(LIBDIR)/libin656.a, $(DESTDIR)$(INCLUDEDIR)/in656.h, the programs and the manual"

package: all
	@rm -rf $(DIST)/package
	@$(MAKE) --no-print-directory install DESTDIR='$(DIST)/package/deb' PREFIX=/usr > /dev/null
	@$(MAKE) --no-print-directory install DESTDIR='$(DIST)/package/tar' PREFIX=/in656-$(VERSION) > /dev/null
	@tools/package '$(DIST)' $(VERSION) $(MACHINE)

input:
	@tools/input "$$IN"

list: input $(DIST)/listing
	@tools/run $(DIST)/listing < "$$IN"

replay: input $(DIST)/replay
	@tools/run $(DIST)/replay < "$$IN"

scene: input $(DIST)/scenes
	@tools/run $(DIST)/scenes < "$$IN"

demo: $(ARCHIVE)
	$(call need,cargo)
	@$(HOST) --bin demo '$(LINE)' '$(SEED)' '$(SECONDS)' $(DIST)/scenes "$$LOG" '$(PANEL)'

soak: $(ARCHIVE)
	$(call need,cargo)
	@$(HOST) --release --bin compare $$((100 * $(FACTOR)))

emulated: $(ARCHIVE)
	$(call need,cargo)
	@tools/emulated $(CHUNKS)

bench: $(ARCHIVE) $(DIST)/listing
	$(call need,cargo)
	@$(HOST) --release --bin bench

stack: $(ARCHIVE)
	$(call need,cargo)
	@$(HOST) --release --bin stack

check:
	.ci/run

help:
	@sed -n 's/^# \(make.*\)/\1/p' Makefile

clean:
	rm -rf $(DIST) target host/target crates/*/out
