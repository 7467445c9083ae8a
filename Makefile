# Builds, installs and packs Kodliwe: the programs, the library for C, and what a user reads of them.
#
#   make KIT=none                    builds into out/none/build with cargo in a minute, and runs the program once
#   make                             proves and builds into out/build with the Rattle kit, and runs the program once
#   make test                        runs every test; ONLY=web,c runs some suites (tests/run says which there are)
#   make quick                       a first verdict on a change, within minutes (tests/quick.py); BASE=COMMIT names what it is compared with
#   make edits                       tries the must-fail edits over the libraries that `make` proved; CRATE=NAME those of one crate, and
#                                    ALONE=1 each by itself, as before a release (tests/edits.py)
#   make install PREFIX= DESTDIR=    PREFIX is /usr/local if it is not given
#   make uninstall PREFIX= DESTDIR=
#   make dist                        out/dist: a tarball of the installed tree, a Debian package and the packages of cargo,
#                                    with SHA256SUMS; with KIT=none they are in out/none/dist
#   make bench                       measures what docs/PERFORMANCE.md has, and writes its tables
#   make crate                       writes rust/, the Rust crate, from the source (packaging/crate), and before it the texts that the
#                                    program prints of docs/ and completions/ (packaging/embed); it needs python3 and cargo
#
# KIT is `rattle` or `none`. Without it, that is the Rattle kit if `rt` is on the PATH, or else what was built before. What is
# built without the kit is tested, not proved, and says so. Both need a C compiler, and what they make needs the C library alone;
# the programs of cargo also need libgcc_s. out/make.log has what the kit says. FLAGS are given to `rt`, as --cpu=x86-64-v3:
# crates/demangle_c/README.md has the choices. FROM_GATE=1 takes the libraries and programs that `rt ci`, just before, proved and built in this
# checkout (packaging/prove).

VERSION := 0.1.0
SONAME := libkodliwe.so.0
SHARED := libkodliwe.so.$(VERSION)
# The name by which programs are linked.
LINKED := libkodliwe.so
ifeq ($(shell uname -s),Darwin)
SONAME := libkodliwe.0.dylib
SHARED := libkodliwe.$(VERSION).dylib
LINKED := libkodliwe.dylib
endif
PROGRAMS := kodliwe demangle_filter
MEASURED := demangle_calls demangle_workloads
HEADERS := include/kodliwe.h include/rustc_demangle.h
MANUALS := docs/kodliwe.1 docs/demangle_filter.1
LICENCES := LICENSE LICENSE-MIT-rustc-demangle LICENSE-APACHE-rustc-demangle
# README.md, documents and examples are in DOCDIR by the same paths as here, so that the links between them work.
DOCUMENTS := $(addprefix docs/,C.md CLUSTER.md DIFFERENCES.md GUARANTEES.md PERFORMANCE.md)
EXAMPLES := $(addprefix examples/,backtrace.c dask_logs.py paths.c)

PREFIX ?= /usr/local
DESTDIR ?=
BINDIR ?= $(PREFIX)/bin
LIBDIR ?= $(PREFIX)/lib
INCLUDEDIR ?= $(PREFIX)/include
DATADIR ?= $(PREFIX)/share
MANDIR ?= $(DATADIR)/man
DOCDIR ?= $(DATADIR)/doc/kodliwe
# The place of the tree that kodliwe.pc names. A tree that can be moved names it by the file's own place.
PC_PREFIX ?= $(PREFIX)
# Where pkg-config and the loader look without being told. Anywhere else, `make install` prints what a user has to set.
SYSTEM := /usr /usr/local
define SAY_PATHS
echo 'To build with the library, and to run what uses the shared one:'; \
	echo '  export PKG_CONFIG_PATH=$(LIBDIR)/pkgconfig$${PKG_CONFIG_PATH:+:$$PKG_CONFIG_PATH}'; \
	echo '  export LD_LIBRARY_PATH=$(LIBDIR)$${LD_LIBRARY_PATH:+:$$LD_LIBRARY_PATH}'
endef
FLAGS ?=
CC ?= cc
STRIP ?= strip
AR ?= ar
OBJCOPY ?= objcopy
CARGO ?= cargo
INSTALL ?= install

ifndef KIT
ifneq ($(shell command -v rt 2>/dev/null)$(wildcard out/build/proved),)
KIT := rattle
else ifneq ($(wildcard out/none/build/$(SHARED)),)
KIT := none
endif
endif
ifneq ($(filter-out rattle none,$(KIT)),)
$(error KIT is `rattle` or `none`, not `$(KIT)`)
endif
ifeq ($(KIT),none)
BUILD := out/none/build
DIST := out/none/dist
HOW := tested, not proved
MACHINE = $(shell uname -m)
DEB_MACHINE = $(shell dpkg --print-architecture)
else
BUILD := out/build
DIST := out/dist
HOW := proved with Rattle
MACHINE := x86_64
DEB_MACHINE := amd64
endif
NAME = kodliwe-$(VERSION)-$(MACHINE)-linux
DEB = kodliwe_$(VERSION)_$(DEB_MACHINE).deb
SOURCES := crates.txt $(shell find crates -path '*/out' -prune -o -name '*.rt' -print -o -name '*.antt' -print)
# The times in what is packed are those of the last commit, so that two builds of it are the same.
SOURCE_DATE_EPOCH ?= $(shell git log -1 --format=%ct 2>/dev/null || date +%s)
export SOURCE_DATE_EPOCH

# What cargo packs of rust/.
CRATES := kodliwe-$(VERSION).crate kodliwe-cli-$(VERSION).crate rustc-demangle-0.1.28.crate
# The functions of the headers.
CALLS := $(shell sed -n 's/^KODLIWE_API [a-z_]* \([a-z_]*\).*/\1/p' include/kodliwe.h) rustc_demangle

.PHONY: all libraries install uninstall dist crate crates test quick edits bench clean
.DELETE_ON_ERROR:
# The kit proves one crate at a time.
.NOTPARALLEL:

all: libraries
	@echo "echo 'worker 1: called _RNvC3foo3bar' | $(BUILD)/kodliwe"
	@echo 'worker 1: called _RNvC3foo3bar' | $(BUILD)/kodliwe

libraries: $(PROGRAMS:%=$(BUILD)/%) $(BUILD)/libkodliwe.a $(BUILD)/$(SHARED)

$(BUILD):
	mkdir -p $@

ifeq ($(KIT),none)

# Where cargo builds, and the sources that it reads.
MADE := out/none/cargo/release
RUST := $(shell find rust -name target -prune -o -type f -print)

$(BUILD)/built: $(RUST) | $(BUILD)
	$(CARGO) build --release --locked --manifest-path rust/Cargo.toml --package kodliwe-cli --target-dir out/none/cargo
	$(CARGO) build --release --locked --manifest-path rust/kodliwe-capi/Cargo.toml --target-dir out/none/cargo
	@touch $@

$(PROGRAMS:%=$(BUILD)/%): $(BUILD)/%: $(BUILD)/built
	@$(STRIP) -o $@ $(MADE)/$*

ifeq ($(LINKED),libkodliwe.so)

$(BUILD)/compare.o: bindings/c/compare.c | $(BUILD)
	@$(CC) -O2 -fPIC -ffreestanding -ffunction-sections $(CFLAGS) -c $< -o $@

# One object, in which all other names than those of the headers are local. So a program of Rust can have it beside its own.
$(BUILD)/libkodliwe.a: $(BUILD)/built $(BUILD)/compare.o $(HEADERS)
	@$(LD) -r --gc-sections $(CALLS:%=-u %) -o $(BUILD)/kodliwe.o $(MADE)/libkodliwe.a $(BUILD)/compare.o
	@$(OBJCOPY) $(CALLS:%=--keep-global-symbol=%) $(BUILD)/kodliwe.o
	@$(STRIP) --strip-unneeded $(BUILD)/kodliwe.o
	@rm -f $@ && $(AR) rcD $@ $(BUILD)/kodliwe.o

else

# The linker of macOS has other words for the same, and cargo's shared library has its name from build.rs.
$(BUILD)/libkodliwe.a: $(BUILD)/built
	@$(LD) -r $(CALLS:%=-u _%) $(CALLS:%=-exported_symbol _%) -o $(BUILD)/kodliwe.o $(MADE)/libkodliwe.a
	@rm -f $@ && $(AR) rc $@ $(BUILD)/kodliwe.o

$(BUILD)/$(SHARED): $(BUILD)/built
	@$(STRIP) -x -o $@ $(MADE)/libkodliwe.dylib

endif

else

ifeq ($(KIT),)
$(BUILD)/proved:
	$(error `make KIT=none` builds with cargo in a minute, tested, not proved; `make` proves in under an hour, with the Rattle kit on the PATH)
else
# One call proves all, so that a library below several of them is proved once.
$(BUILD)/proved: $(SOURCES) packaging/prove | $(BUILD)
	@packaging/prove $(PROGRAMS) demangle_c $(FLAGS)
	@touch $@
endif

$(PROGRAMS:%=$(BUILD)/%): $(BUILD)/%: $(BUILD)/proved
	@$(STRIP) -o $@ crates/$*/out/$*

# What bench/calls.py and tests/speed.py measure. No user needs it, so that `make` alone does not build it.
$(BUILD)/measured: $(BUILD)/proved
	@packaging/prove $(MEASURED) $(FLAGS)
	@touch $@

$(MEASURED:%=$(BUILD)/%): $(BUILD)/%: $(BUILD)/measured
	@$(STRIP) -o $@ crates/$*/out/$*

$(BUILD)/rustc_demangle.o: bindings/c/rustc_demangle.c $(HEADERS) | $(BUILD)
	@$(CC) -O2 -fPIC -I include $(CFLAGS) -c $< -o $@

$(BUILD)/libkodliwe.a: $(BUILD)/proved $(BUILD)/rustc_demangle.o
	@$(STRIP) --enable-deterministic-archives --strip-debug -o $@ crates/demangle_c/out/libdemangle_c.a
	@$(AR) rD $@ $(BUILD)/rustc_demangle.o

endif

ifeq ($(LINKED),libkodliwe.so)
$(BUILD)/$(SHARED): $(BUILD)/libkodliwe.a packaging/libkodliwe.map
	@$(CC) -shared -Wl,-soname,$(SONAME) -Wl,--version-script=packaging/libkodliwe.map -Wl,-z,defs -Wl,-z,relro,-z,now \
		-Wl,--gc-sections -Wl,--whole-archive $< -Wl,--no-whole-archive $(LDFLAGS) -o $@
	@$(STRIP) --strip-unneeded $@
endif

install: libraries
	$(INSTALL) -d $(DESTDIR)$(BINDIR) $(DESTDIR)$(LIBDIR)/pkgconfig $(DESTDIR)$(INCLUDEDIR) $(DESTDIR)$(MANDIR)/man1 $(DESTDIR)$(DOCDIR)/docs $(DESTDIR)$(DOCDIR)/examples \
		$(DESTDIR)$(DATADIR)/bash-completion/completions $(DESTDIR)$(DATADIR)/zsh/site-functions $(DESTDIR)$(DATADIR)/fish/vendor_completions.d
	$(INSTALL) -m 755 $(PROGRAMS:%=$(BUILD)/%) $(DESTDIR)$(BINDIR)
	$(INSTALL) -m 644 $(BUILD)/libkodliwe.a $(BUILD)/$(SHARED) $(DESTDIR)$(LIBDIR)
	ln -sf $(SHARED) $(DESTDIR)$(LIBDIR)/$(SONAME)
	ln -sf $(SONAME) $(DESTDIR)$(LIBDIR)/$(LINKED)
	sed -e 's|@PREFIX@|$(PC_PREFIX)|' -e 's|@LIBDIR@|$(LIBDIR:$(PREFIX)/%=%)|' -e 's|@INCLUDEDIR@|$(INCLUDEDIR:$(PREFIX)/%=%)|' \
		-e 's|@VERSION@|$(VERSION)|' -e 's|@HOW@|$(HOW)|' packaging/kodliwe.pc.in > $(DESTDIR)$(LIBDIR)/pkgconfig/kodliwe.pc
	chmod 644 $(DESTDIR)$(LIBDIR)/pkgconfig/kodliwe.pc
	$(INSTALL) -m 644 $(HEADERS) $(DESTDIR)$(INCLUDEDIR)
	$(INSTALL) -m 644 $(MANUALS) $(DESTDIR)$(MANDIR)/man1
	$(INSTALL) -m 644 completions/kodliwe.bash $(DESTDIR)$(DATADIR)/bash-completion/completions/kodliwe
	$(INSTALL) -m 644 completions/_kodliwe $(DESTDIR)$(DATADIR)/zsh/site-functions/_kodliwe
	$(INSTALL) -m 644 completions/kodliwe.fish $(DESTDIR)$(DATADIR)/fish/vendor_completions.d/kodliwe.fish
	$(INSTALL) -m 644 README.md $(LICENCES) $(DESTDIR)$(DOCDIR)
	$(INSTALL) -m 644 $(DOCUMENTS) $(DESTDIR)$(DOCDIR)/docs
	$(INSTALL) -m 644 $(EXAMPLES) $(DESTDIR)$(DOCDIR)/examples
	@packaging/links $(DESTDIR)$(DOCDIR)
	@$(if $(DESTDIR)$(filter $(SYSTEM),$(PREFIX)),:,$(SAY_PATHS))

uninstall:
	rm -f $(PROGRAMS:%=$(DESTDIR)$(BINDIR)/%) $(DESTDIR)$(LIBDIR)/libkodliwe.a $(DESTDIR)$(LIBDIR)/$(SHARED) \
		$(DESTDIR)$(LIBDIR)/$(SONAME) $(DESTDIR)$(LIBDIR)/$(LINKED) $(DESTDIR)$(LIBDIR)/pkgconfig/kodliwe.pc \
		$(HEADERS:include/%=$(DESTDIR)$(INCLUDEDIR)/%) $(MANUALS:docs/%=$(DESTDIR)$(MANDIR)/man1/%) \
		$(DESTDIR)$(DATADIR)/bash-completion/completions/kodliwe $(DESTDIR)$(DATADIR)/zsh/site-functions/_kodliwe \
		$(DESTDIR)$(DATADIR)/fish/vendor_completions.d/kodliwe.fish
	rm -rf $(DESTDIR)$(DOCDIR)

dist: $(DIST)/$(NAME).tar.gz $(DIST)/$(DEB) crates
	cd $(DIST) && sha256sum $(NAME).tar.gz $(DEB) $(CRATES) > SHA256SUMS

crate:
	packaging/embed
	python3 packaging/crate/erase.py . rust

crates:
	@# In the user's CARGO_HOME, cargo would take a crate of this version that was packed before.
	rm -rf out/crate/package
	CARGO_HOME=$(abspath out/crate/package/home) cargo package --offline --allow-dirty --workspace --manifest-path rust/Cargo.toml --target-dir out/crate/package
	mkdir -p $(DIST) && cp $(CRATES:%=out/crate/package/package/%) $(DIST)

# A tree that can be unpacked anywhere: kodliwe.pc finds the rest from its own place.
$(DIST)/$(NAME).tar.gz: libraries $(HEADERS) $(LICENCES) README.md
	rm -rf $(DIST)/$(NAME)
	$(MAKE) --no-print-directory install KIT=$(KIT) PREFIX= DESTDIR=$(abspath $(DIST)/$(NAME)) DOCDIR=/share/doc/kodliwe PC_PREFIX='$$$${pcfiledir}/../..'
	cd $(DIST)/$(NAME) && find . -type f ! -name SHA256SUMS | LC_ALL=C sort | xargs sha256sum > share/doc/kodliwe/SHA256SUMS
	tar -C $(DIST) --sort=name --owner=0 --group=0 --numeric-owner --mode=go=rX,u+rw --mtime=@$(SOURCE_DATE_EPOCH) -cf - $(NAME) | gzip -9n > $@

$(DIST)/$(DEB): libraries $(HEADERS) $(LICENCES) README.md packaging/debian/build
	packaging/debian/build $(VERSION) $(abspath $(DIST)/debian) $(abspath $@) $(KIT)

test:
	ONLY=$(ONLY) tests/run

quick:
	tests/quick.py $(addprefix --base ,$(BASE))

edits:
	tests/edits.py --try $(if $(ALONE),--alone) $(CRATE)

bench:
	bench/write.py

clean:
	rm -rf out
