# Builds and installs the library for programs and the command `terrain` for people. It needs no network.
#   make                             compiles library and command in a minute or two, into target/quick; the proofs are not repeated
#   make prove                       repeats the proofs, and compiles what they prove
#   make install PREFIX=/usr/local   from proved code only: header, archive, pkg-config file, CMake package, command, man page and shell completion;
#                                    below DESTDIR, if that is set
#   make install-library PREFIX=..   the same without command, man page and completion: no compiler and no listing program is needed for it
#   make uninstall PREFIX=..
#   make ports                       the library for other machines, in target/ports; make dist: one archive a platform, in target/dist
# TERRAIN_LIB=FOLDER takes libterrain.a from there, as it is.
PREFIX ?= /usr/local
DESTDIR ?=
BINDIR ?= $(PREFIX)/bin
INCLUDEDIR ?= $(PREFIX)/include
LIBDIR ?= $(PREFIX)/lib
MANDIR ?= $(PREFIX)/share/man
DOCDIR ?= $(PREFIX)/share/doc/terrain
COMPLETIONDIR ?= $(PREFIX)/share/bash-completion/completions
ZSHDIR ?= $(PREFIX)/share/zsh/site-functions
FISHDIR ?= $(PREFIX)/share/fish/vendor_completions.d
# beside BINDIR, where the command looks for its programs
PROGRAMDIR := $(BINDIR)/../libexec/terrain
PKGCONFIGDIR := $(LIBDIR)/pkgconfig
CMAKEDIR := $(LIBDIR)/cmake/Terrain

QUICK := $(or $(TERRAIN_LIB),target/quick)
ARCHIVE := $(or $(TERRAIN_LIB),target/staticlib)/libterrain.a
PROGRAMS := $(or $(TERRAIN_LIB),target/bin)
VERSION := $(shell sed -n 's/^\#define TERRAIN_VERSION_TEXT "\(.*\)"$$/\1/p' include/terrain.h)

# The command; with TERRAIN_LIB its programs list and rewrite are taken from there too. PNG goes by libpng where it is installed (LIBPNG= builds without it):
# the sources then differ in two files. zlib's deflate comes with it.
LIBPNG ?= $(shell pkg-config --exists libpng 2>/dev/null && echo yes)
PNG := $(if $(LIBPNG),png_libpng pack_deflate,png_stored pack_none)
COMMAND := $(filter-out command/png_% command/pack_%,$(wildcard command/*.c)) $(PNG:%=command/%.c)
COMMAND_PARTS := $(wildcard command/*.h examples/*.h) include/terrain.h Makefile
COMMAND_FLAGS = -std=c11 -D_GNU_SOURCE -O2 -Wall -Wextra -Wshadow -I include $(if $(LIBPNG),$(shell pkg-config --cflags libpng))
COMMAND_LIBS = $(if $(LIBPNG),$(shell pkg-config --libs libpng) -lz) -lm
# What the crates are compiled from, and what they are proved from.
SOURCES := $(shell find crates -path '*/out' -prune -o -name '*.rt' -path '*/src/*' -print)
CRATES := crates.txt $(shell find crates \( -path '*/must-fail' -o -path '*/out' \) -prune -o -type f -print)

# What is built over an archive of one's own is built each time, apart from the rest.
BUILT := target/command$(if $(TERRAIN_LIB),/own)
# A document that is installed names what is installed beside it, and says of the rest where it is.
INSTALLED = sed -E -e 's,docs/(STUDIOS|STATE|FORMAT)[.]md,\1.md,g' -e 's,`((docs|bench|crates|bindings|tests|tools)/[^`]*)`,`\1` (in the repository),g'

# What is written into the files of packaging/: an installed tree may be moved as a whole, so they name folders from where they stand.
FILL = sed -e 's|@VERSION@|$(VERSION)|' -e 's|@INCLUDE@|$(shell realpath -m --relative-to='$(1)' '$(INCLUDEDIR)')|' \
	-e 's|@LIB@|$(shell realpath -m --relative-to='$(1)' '$(LIBDIR)')|'

.PHONY: all install install-library install-command uninstall ports dist
all: $(BUILT)/terrain

.PHONY: always prove proved
always:

# ---- without the proofs

target/quick/libterrain.a: $(SOURCES) crates.txt $(wildcard tools/quick/*)
	@printf 'terrain: compiling, once .. ' >&2
	@tools/quick/compile target/quick terrain_c list rewrite
	@touch $@
	@echo "compiled; \`make prove\` repeats the proofs" >&2

$(BUILT)/terrain: $(QUICK)/libterrain.a $(COMMAND) $(COMMAND_PARTS) $(if $(TERRAIN_LIB),always)
	@mkdir -p $(BUILT)
	@$(CC) $(COMMAND_FLAGS) -DPROGRAMS='"$(shell realpath -m --relative-to=$(BUILT) $(QUICK))"' $(COMMAND) $(QUICK)/libterrain.a $(COMMAND_LIBS) -o $@.new
	@mv $@.new $@

# ---- proved

prove:
	tools/build terrain list rewrite

# rt itself goes by contents, and proves only what changed
target/staticlib/libterrain.a: $(CRATES)
	tools/build terrain
	@touch $@

target/bin/list target/bin/rewrite: $(CRATES)
	tools/build $(@F)
	@touch $@

ifdef TERRAIN_LIB
$(TERRAIN_LIB)/%:
	@echo "terrain: $@ is missing: TERRAIN_LIB names its folder" >&2; exit 1
endif

# nothing that was only compiled is handed out
proved: $(ARCHIVE)
	@if ar t $(ARCHIVE) | grep -q not-proved; then echo "$(ARCHIVE) is compiled and not proved: it is not installed" >&2; exit 1; fi

target/install/terrain: $(ARCHIVE) $(COMMAND) $(COMMAND_PARTS)
	@mkdir -p target/install
	$(CC) $(COMMAND_FLAGS) -DPROGRAMS='"../libexec/terrain"' $(COMMAND) $(ARCHIVE) $(COMMAND_LIBS) -o $@

# the proved library for other machines, tested where something here runs them, and one archive a platform (ports/README.md)
ports:
	tools/build terrain
	ports/build target/ports

dist: ports
	ports/dist target/ports target/dist

install: install-library install-command

install-library: proved
	install -d '$(DESTDIR)$(INCLUDEDIR)' '$(DESTDIR)$(PKGCONFIGDIR)' '$(DESTDIR)$(CMAKEDIR)' '$(DESTDIR)$(DOCDIR)'
	install -m 644 include/terrain.h '$(DESTDIR)$(INCLUDEDIR)'
	install -m 644 '$(ARCHIVE)' '$(DESTDIR)$(LIBDIR)'
	ports/shared '$(ARCHIVE)' '$(DESTDIR)$(LIBDIR)'
	for name in terrain terrain-shared; do \
	    $(call FILL,$(PKGCONFIGDIR)) packaging/$$name.pc.in >'$(DESTDIR)$(PKGCONFIGDIR)'/$$name.pc || exit 1; \
	done
	for name in TerrainConfig TerrainConfigVersion; do \
	    $(call FILL,$(CMAKEDIR)) packaging/$$name.cmake.in >'$(DESTDIR)$(CMAKEDIR)'/$$name.cmake || exit 1; \
	done
	for file in docs/STUDIOS.md docs/STATE.md docs/FORMAT.md CHANGELOG.md; do $(INSTALLED) $$file >'$(DESTDIR)$(DOCDIR)'/$${file##*/} || exit 1; done
	cp -r examples '$(DESTDIR)$(DOCDIR)'

install-command: proved target/install/terrain $(PROGRAMS)/list $(PROGRAMS)/rewrite
	install -d '$(DESTDIR)$(BINDIR)' '$(DESTDIR)$(PROGRAMDIR)' '$(DESTDIR)$(MANDIR)/man1' '$(DESTDIR)$(COMPLETIONDIR)' '$(DESTDIR)$(ZSHDIR)' '$(DESTDIR)$(FISHDIR)'
	install -m 755 target/install/terrain '$(DESTDIR)$(BINDIR)'
	install -m 755 $(PROGRAMS)/list $(PROGRAMS)/rewrite '$(DESTDIR)$(PROGRAMDIR)'
	install -m 644 docs/terrain.1 '$(DESTDIR)$(MANDIR)/man1'
	install -m 644 packaging/terrain.bash '$(DESTDIR)$(COMPLETIONDIR)/terrain'
	install -m 644 packaging/terrain.zsh '$(DESTDIR)$(ZSHDIR)/_terrain'
	install -m 644 packaging/terrain.fish '$(DESTDIR)$(FISHDIR)/terrain.fish'

uninstall:
	rm -f '$(DESTDIR)$(INCLUDEDIR)/terrain.h' '$(DESTDIR)$(PKGCONFIGDIR)/terrain.pc' '$(DESTDIR)$(PKGCONFIGDIR)/terrain-shared.pc'
	rm -f '$(DESTDIR)$(LIBDIR)/libterrain.a' '$(DESTDIR)$(LIBDIR)/libterrain.so.0' '$(DESTDIR)$(LIBDIR)/libterrain.so'
	rm -f '$(DESTDIR)$(BINDIR)/terrain' '$(DESTDIR)$(MANDIR)/man1/terrain.1'
	rm -rf '$(DESTDIR)$(CMAKEDIR)' '$(DESTDIR)$(PROGRAMDIR)' '$(DESTDIR)$(DOCDIR)'
	rm -f '$(DESTDIR)$(COMPLETIONDIR)/terrain' '$(DESTDIR)$(ZSHDIR)/_terrain' '$(DESTDIR)$(FISHDIR)/terrain.fish'
