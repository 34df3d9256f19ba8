# Builds the library, the command `nemod` and what goes with them into build/, and installs them. `make help` says what
# there is.
SHELL = bash
.SHELLFLAGS = -euo pipefail -c
.DELETE_ON_ERROR:
.SUFFIXES:
.PHONY: all header try test install uninstall clean help compiler FORCE

CC = cc
OBJCOPY = objcopy
INSTALL = install
PREFIX = /usr/local
BINDIR = $(PREFIX)/bin
LIBDIR = $(PREFIX)/lib
INCLUDEDIR = $(PREFIX)/include
MANDIR = $(PREFIX)/share/man
COMPLETIONDIR = $(PREFIX)/share/bash-completion/completions
PKGCONFIGDIR = $(LIBDIR)/pkgconfig
BUILD = build

# The workspace's version is the library's too. Its first number is that of the binary interface.
VERSION := $(shell sed -n 's/^version = "\(.*\)"$$/\1/p' Cargo.toml)
SHARED := libne.so.$(VERSION)
SONAME := libne.so.$(firstword $(subst ., ,$(VERSION)))

# The folder of a libne.a that is taken as it is; without one the library is proved and built. Spaces may be in it, so
# abspath isn't for it.
ifneq ($(NE_LIB_DIR),)
override NE_LIB_DIR := $(if $(filter /%,$(firstword $(NE_LIB_DIR))),,$(CURDIR)/)$(NE_LIB_DIR)
export NE_LIB_DIR
endif
PROVED = target/staticlib
ARCHIVE = $(or $(NE_LIB_DIR),$(PROVED))/libne.a

all: $(BUILD)/libne.a $(BUILD)/libne.so $(BUILD)/nemod $(BUILD)/ne.pc

# A command that lacks is told with what it is for.
need = @. .ci/need; need
compiler:
	$(need) $(firstword $(CC)) 'to link libne.so and to build the sample driver'

# A file that stays the same isn't touched, so nothing is made from it again.
update = cmp -s $(1) $@ || cp $(1) $@

# The list of what the library is proved from: Rattle's version, and each file with its time. A file that is changed,
# added or removed changes the list, and so does another Rattle; else nothing is proved again.
target/proved-from: FORCE
	$(need) rt 'to prove and build the library' 'With NE_LIB_DIR=/folder a libne.a that is built is taken instead.'
	@mkdir -p target
	@{ rt version; find crates.txt crates/*/{src,specs,proofs} -type f -printf '%p %T@\n' | sort; } >$@.now
	@$(call update,$@.now)

$(PROVED)/libne.a: target/proved-from
	.ci/build-library

$(BUILD)/libne.a: $(if $(NE_LIB_DIR),,$(PROVED)/libne.a) FORCE | $(BUILD)
	@$(call update,"$(ARCHIVE)")

$(BUILD)/nemod: $(BUILD)/libne.a FORCE
	. .ci/rust && cargo_in . build --package nemod --target-dir $(abspath $(BUILD))/cargo
	@$(call update,$(BUILD)/cargo/release/nemod)

# What is exported is what the header declares and doesn't define itself, and the library has to have it.
$(BUILD)/ne.map: include/ne.h Makefile | $(BUILD) compiler
	names=$$($(CC) -E -P $< | grep -v '^static ' | grep -oE '\bne_[a-z_]+\(' | tr '(' ';') && \
	    echo "{ global: $$names local: *; };" >$@

$(BUILD)/$(SHARED): $(BUILD)/libne.a $(BUILD)/ne.map | compiler
	$(CC) -shared $(LDFLAGS) -Wl,-soname,$(SONAME),-z,defs,-z,relro,-z,now -o $@ \
	    -Wl,--no-undefined-version,--version-script=$(BUILD)/ne.map -Wl,--whole-archive $< -Wl,--no-whole-archive

# The other names are no symbolic links, which `rt ci` refuses anywhere in the repository.
$(BUILD)/libne.so: $(BUILD)/$(SHARED)
	ln -f $< $(BUILD)/$(SONAME)
	ln -f $< $@

# The folders may differ from one make to the next, and spaces may be in them. The `=` stands for a folder's start.
in_prefix = $(subst =$(PREFIX)/,=$${prefix}/,=$(1))
$(BUILD)/ne.pc: ne.pc.in FORCE | $(BUILD)
	@sed -e 's|@PREFIX@|$(PREFIX)|' -e 's|=@LIBDIR@|$(call in_prefix,$(LIBDIR))|' \
	    -e 's|=@INCLUDEDIR@|$(call in_prefix,$(INCLUDEDIR))|' -e 's|@VERSION@|$(VERSION)|' $< >$@

$(BUILD)/sample.drv: examples/sample.s | $(BUILD) compiler
	$(need) $(firstword $(OBJCOPY)) 'to build the sample driver'
	$(CC) -c -o $(BUILD)/sample.o $<
	$(OBJCOPY) -O binary $(BUILD)/sample.o $@

$(BUILD):
	mkdir -p $@

header:
	include/refusals

try: all $(BUILD)/sample.drv
	$(BUILD)/nemod check $(BUILD)/sample.drv
	$(BUILD)/nemod list $(BUILD)/sample.drv
	$(BUILD)/nemod prepare $(BUILD)/sample.drv 2 --selectors 0x1000,0x1008 \
	    --answers 0,0,0xF0000003,0xF0000004 -o $(BUILD)/sample.2 --show

test:
	.ci/run

install: all
	$(INSTALL) -d "$(DESTDIR)$(BINDIR)" "$(DESTDIR)$(LIBDIR)" "$(DESTDIR)$(INCLUDEDIR)" "$(DESTDIR)$(PKGCONFIGDIR)" \
	    "$(DESTDIR)$(MANDIR)/man1" "$(DESTDIR)$(COMPLETIONDIR)"
	$(INSTALL) -m 755 $(BUILD)/nemod "$(DESTDIR)$(BINDIR)"
	$(INSTALL) -m 644 $(BUILD)/libne.a "$(DESTDIR)$(LIBDIR)"
	$(INSTALL) -m 755 $(BUILD)/$(SHARED) "$(DESTDIR)$(LIBDIR)"
	ln -sf $(SHARED) "$(DESTDIR)$(LIBDIR)/$(SONAME)"
	ln -sf $(SONAME) "$(DESTDIR)$(LIBDIR)/libne.so"
	$(INSTALL) -m 644 include/ne.h "$(DESTDIR)$(INCLUDEDIR)"
	$(INSTALL) -m 644 $(BUILD)/ne.pc "$(DESTDIR)$(PKGCONFIGDIR)"
	$(INSTALL) -m 644 cli/nemod.1 "$(DESTDIR)$(MANDIR)/man1"
	$(INSTALL) -m 644 cli/nemod.bash "$(DESTDIR)$(COMPLETIONDIR)/nemod"

uninstall:
	rm -f "$(DESTDIR)$(BINDIR)/nemod" "$(DESTDIR)$(LIBDIR)/libne.a" "$(DESTDIR)$(LIBDIR)/$(SHARED)" \
	    "$(DESTDIR)$(LIBDIR)/$(SONAME)" "$(DESTDIR)$(LIBDIR)/libne.so" "$(DESTDIR)$(INCLUDEDIR)/ne.h" \
	    "$(DESTDIR)$(PKGCONFIGDIR)/ne.pc" "$(DESTDIR)$(MANDIR)/man1/nemod.1" \
	    "$(DESTDIR)$(COMPLETIONDIR)/nemod"

clean:
	rm -rf $(BUILD)

help:
	@echo 'make             libne.a, libne.so, nemod and ne.pc in build/; proves the library first, if it or rt changed'
	@echo 'make try         the same, then prepares a segment of a sample driver'
	@echo 'make header      writes the version and the refusals into include/ne.h, from Cargo.toml and their table'
	@echo 'make install     to PREFIX ($(PREFIX)), under DESTDIR; BINDIR, LIBDIR, INCLUDEDIR, MANDIR and COMPLETIONDIR'
	@echo '                 can be said too'
	@echo 'make uninstall   removes what was installed there'
	@echo 'make test        every proof and every test (.ci/run)'
	@echo 'make clean       removes build/'
	@echo 'NE_LIB_DIR=FOLDER makes all but the test with the libne.a of that folder, and proves nothing'
