# Builds, checks and installs the library for C. `make help` says how, docs/C.md says more. It runs no gate: that is `rt ci`.

RT ?= $(shell command -v rt 2>/dev/null)
TOOLCHAIN ?= $(if $(ARCHIVE),an unknown toolchain,$(shell $(RT) version))
CPU ?= x86-64-v2
BUILD ?= build

PREFIX ?= /usr/local
LIBDIR ?= $(PREFIX)/lib
INCLUDEDIR ?= $(PREFIX)/include
BINDIR ?= $(PREFIX)/bin
MANDIR ?= $(PREFIX)/share/man
DOCDIR ?= $(PREFIX)/share/doc/mbj
INSTALL ?= install
CFLAGS ?= -O2

define help
make             builds the static and the shared library, having proved them
make check       builds and tests them
make install     copies what was built to PREFIX=/usr/local, below DESTDIR= where that is given. The folders
                 LIBDIR= INCLUDEDIR= BINDIR= MANDIR= DOCDIR= may be given too
make uninstall   removes what was installed, with the same settings
make mbjobs      builds the program mbjobs, having proved it; make install copies that too
make dropin      builds a library that stands in for Intel's libIPSec_MB.so, in a folder of its own. It needs the header of
                 intel-ipsec-mb 1.3 or 2.0 (Debian's libipsec-mb-dev), by whose version its name ends in .1 or .2, and holds a
                 build for AVX2 too. HEADERS=FOLDER names the folder of another header than the system's
make check-dropin builds and tests that library, beside Intel's and with DPDK where they are installed. DEBIAN13=FOLDER names a
                 root of Debian 13, with which 2.0 is tested after 1.3
make install-dropin PREFIX=FOLDER
                 copies it to DROPINDIR=PREFIX/lib/mbj-dropin, and touches no other library. A program runs over it with
                 LD_LIBRARY_PATH=DROPINDIR (docs/FROM_IPSEC_MB.md)
make shadow      builds a checker under load, in a folder of its own: a library that stands between a program and Intel's
                 libIPSec_MB.so.1, and compares a share of the results with the proved ones. It needs what make dropin needs,
                 of version 1.3
make check-shadow builds and tests the checker, with DPDK where that is installed
make install-shadow PREFIX=FOLDER
                 copies it to SHADOWDIR=PREFIX/lib/mbj-shadow, and the header of its counters (docs/SHADOW.md)
make clean       removes what was built

RT=COMMAND       the toolchain's command, where rt isn't on the path
ARCHIVE=FILE     an archive that was built elsewhere, in place of the toolchain. With it:
                 ARCHIVE_AVX2=FILE    another one, for AVX2
                 TOOLCHAIN=LINE       what `rt version` printed there
                 MBJOBS=FILE          the program
CPU=x86-64-v3    builds for processors with AVX2 alone. By default, x86-64-v2, the libraries run wherever SSE4.2 is, and a
                 second shared library for AVX2 stands where the loader finds it
IPSEC_MB=FILE    Intel's library, for make shadow, where the compiler doesn't find it
BUILD=FOLDER     where things are built, and installed from: build
CC= CPPFLAGS= CFLAGS= LDFLAGS=
                 for the library's C code and its linking
endef

# ---- what is built, and what for ----

# The version stands in the header.
number = $(shell sed -n 's/^.define MBJ_VERSION_$(1) //p' include/mbj.h)
major := $(call number,MAJOR)
version := $(major).$(call number,MINOR).$(call number,PATCH)

# The headers, and the functions that they declare and don't define.
interface := $(addprefix include/,mbj.h mbj_codes.h mbj_fill.h mbj_inline.h mbj_inline_jobs.h mbj_inline_bursts.h mbj_inline_texts.h \
    mbj_raw.h mbj_direct.h mbj_seat.h mbj_heap.h mbj_heap_pool.h)
exports := $(shell sed -n ':again; /^[a-z].*,$$/{N; s/\n */ /; b again}; s/^[a-z].*[ *]\(mbj_[a-z_]*\)(.*);$$/\1/p' $(interface))

static := libmbj_c.a
shared := libmbj_c.so.$(major)

avx2 := x86-64-v3
cpus := $(sort $(CPU) $(if $(or $(ARCHIVE_AVX2),$(if $(ARCHIVE),,yes)),$(avx2)))
main := $(BUILD)/$(CPU)
beside := $(if $(filter-out $(avx2),$(CPU)),$(BUILD)/$(avx2))
program := $(or $(MBJOBS),$(if $(ARCHIVE),,$(BUILD)/mbjobs))

goals := $(filter-out help install uninstall install-dropin install-shadow clean,$(or $(MAKECMDGOALS),all))
ifneq ($(goals),)
ifeq ($(filter x86-64-v2 $(avx2),$(CPU)),)
$(error CPU is x86-64-v2 or $(avx2))
endif
ifeq ($(or $(ARCHIVE),$(shell command -v $(firstword $(RT)) 2>/dev/null)),)
$(error no toolchain: have its command rt on the path, give it by RT=, or give an archive that was built elsewhere by ARCHIVE=)
endif
endif

# What an earlier call built for AVX2, and this one doesn't, isn't left to be installed.
all: $(foreach cpu,$(cpus),$(BUILD)/$(cpu)/$(static) $(BUILD)/$(cpu)/$(shared))
	@rm -rf $(filter-out $(cpus:%=$(BUILD)/%),$(beside))

# ---- the proved code ----

# Copies a file, where it isn't the same already.
copy = @mkdir -p $(@D) && { cmp -s $(1) $@ || cp $(1) $@; }

ifneq ($(ARCHIVE),)
given-$(avx2) := $(ARCHIVE_AVX2)
given-$(CPU) := $(ARCHIVE)

$(BUILD)/%/proved.a: FORCE
	$(call copy,$(given-$*))
else
sources := crates.txt $(shell find crates -name out -prune -o '(' -name '*.rt' -o -name '*.antt' ')' -print)

$(BUILD)/%/proved.a: $(BUILD)/%/rt-lib.a FORCE
	$(call copy,$<)

$(BUILD)/%/rt-lib.a: $(sources)
	@echo 'rt lib proves mbj_c and the crates below it, and then builds it for $*: on a new machine half an hour to an hour, later minutes'
	@mkdir -p $(@D)
	cd crates/mbj_c && $(RT) lib --cpu $*
	cp crates/mbj_c/out/$(static) $@

$(BUILD)/mbjobs: $(sources)
	@echo 'rt run proves mbjobs and the crates below it, and then builds it: on a new machine half an hour to an hour, later minutes'
	@mkdir -p $(@D)
	cd crates/mbjobs && $(RT) run -- run --submitters 1 --workers 0 < stdin
	cp crates/mbjobs/out/mbjobs $@
endif

mbjobs: $(program)

# ---- the libraries ----

# A word for the shell, whatever characters it has; and for a string of C within that.
quoted = '$(subst ','\'',$(1))'
in-string = $(subst ",\",$(subst \,\\,$(1)))

# The objects are renamed and joined by binutils, which reads no code that is left to the linker to make.
plain = $(CFLAGS) -fno-lto
here = $(call quoted,-ffile-prefix-map=$(CURDIR)=.)

compile = $(CC) -std=c11 -Wall -Wextra $(CPPFLAGS) $(plain) -march=x86-64 -fPIC $(here) -c -o $@ $<

# What was last built with. Where that changes, what depends on it is built anew.
settings = $(TOOLCHAIN) $(CC) $(CPPFLAGS) $(CFLAGS) $(LDFLAGS) $(cpus)

$(BUILD)/settings: FORCE
	@mkdir -p $(@D) && printf '%s\n' $(call quoted,$(settings)) > $@.now && { cmp -s $@.now $@ || cp $@.now $@; }

$(BUILD)/%/mbj_processor.o: include/mbj_processor.c $(interface) $(BUILD)/settings
	@mkdir -p $(@D)
	$(compile) -DMBJ_LEVEL=$(*:x86-64-v%=%) $(call quoted,-DMBJ_TOOLCHAIN="$(call in-string,$(TOOLCHAIN))")

# The heaps that a manager may have. Which one a thread names is an object by itself, and so is what the proved code asks.
heaps := $(addprefix $(BUILD)/,mbj_heap.o mbj_heap_choice.o mbj_heap_pool.o)

$(heaps): $(BUILD)/%.o: include/%.c include/mbj_heap_choice.h $(interface) $(BUILD)/settings
	@mkdir -p $(@D)
	$(compile) -DMBJ_POOLS_ALONE

$(BUILD)/%/$(static): $(BUILD)/%/proved.a $(BUILD)/%/mbj_processor.o $(heaps) packaging/archive
	AR='$(AR)' packaging/archive $* $@ $(filter-out packaging/archive,$^)

$(BUILD)/exports.map: $(interface)
	@mkdir -p $(@D)
	@printf '%s\n' 'MBJ_$(major) {' 'global:' $(exports:%='    %;') 'local:' '    *;' '};' > $@

$(BUILD)/%/$(shared): $(BUILD)/%/$(static) $(BUILD)/exports.map $(BUILD)/settings
	$(CC) $(plain) $(LDFLAGS) -shared -Wl,-soname,$(shared) -Wl,--version-script=$(BUILD)/exports.map -Wl,--no-undefined-version \
	    -Wl,-z,text -Wl,-z,defs -o $@ -Wl,--whole-archive $< -Wl,--no-whole-archive

# ---- in place of Intel's library ----

DROPINDIR ?= $(PREFIX)/lib/mbj-dropin

# The ABI is that of the header: a version has the one of its first number, and files of its own in compat. Of a given folder the header
# alone is taken: the folder may have all of another system's.
intel-header := $(if $(HEADERS),$(BUILD)/dropin/include/intel-ipsec-mb.h)
intel-headers := $(if $(HEADERS),-I$(BUILD)/dropin/include)
intel-goals := $(filter dropin check-dropin shadow check-shadow,$(goals))
intel-given := $(call quoted,$(if $(HEADERS),$(HEADERS)/)intel-ipsec-mb.h)
intel-version := $(if $(intel-goals),$(shell $(CC) $(CPPFLAGS) -E -dM -include $(intel-given) -xc /dev/null 2>&1 | \
    sed -n 's/^.define IMB_VERSION_STR "\(.*\)"/\1/p'))
built-dropin = $(wildcard $(BUILD)/dropin/libIPSec_MB.so.*)
intel-abis := 1.3.% 2.0.%

ifneq ($(intel-goals),)
ifeq ($(intel-version),)
$(error no intel-ipsec-mb.h: install it (Debian's libipsec-mb-dev), or give its folder by HEADERS=)
endif
ifeq ($(filter $(intel-abis),$(intel-version)),)
$(error intel-ipsec-mb.h is of version $(intel-version): the drop-in has the ABIs of 1.3 and 2.0 alone)
endif
ifneq ($(filter %shadow,$(intel-goals)),)
ifeq ($(filter 1.3.%,$(intel-version)),)
$(error intel-ipsec-mb.h is of version $(intel-version): the checker under load is there for 1.3 alone)
endif
endif
endif

abi := $(firstword $(subst ., ,$(intel-version)))
dropin := $(BUILD)/dropin/libIPSec_MB.so.$(abi)
dropin-sources := $(filter-out compat/version_%,$(wildcard compat/*.c)) $(wildcard compat/version_$(abi)*.c) include/mbj_heap_pool.c
dropin-objects := $(patsubst %.c,$(BUILD)/dropin/%.o,$(notdir $(dropin-sources)))
dropin-builds := $(foreach cpu,$(cpus),$(BUILD)/$(cpu)/renamed.o)

# The manager names its pool in each thread, so that name is at a fixed place.
compile-dropin = $(CC) -std=c11 -D_DEFAULT_SOURCE -Wall -Wextra $(CPPFLAGS) $(plain) -march=x86-64 -fPIC -fvisibility=hidden \
    -ftls-model=initial-exec -Iinclude -Icompat $(intel-headers) $(here) $(cpus:x86-64-v%=-DCOMPAT_HAS_V%) -c -o $@ $<

# What it was last built for.
$(BUILD)/dropin/settings: FORCE
	@mkdir -p $(@D) && printf '%s\n' $(call quoted,$(intel-version) $(HEADERS)) > $@.now && { cmp -s $@.now $@ || cp $@.now $@; }

$(BUILD)/dropin/include/intel-ipsec-mb.h: FORCE
	@mkdir -p $(@D) && { cmp -s $(intel-given) $@ || cp $(intel-given) $@; }

$(BUILD)/dropin/%.o: compat/%.c $(wildcard compat/*.h) $(interface) include/mbj_selftest.h $(BUILD)/settings $(BUILD)/dropin/settings \
    $(intel-header)
	@mkdir -p $(@D)
	$(compile-dropin)

$(BUILD)/dropin/mbj_heap_pool.o: include/mbj_heap_pool.c include/mbj_heap_pool.h $(BUILD)/settings
	@mkdir -p $(@D)
	$(compile-dropin)

# Not among the objects of the drop-in: each build has its own.
$(BUILD)/mbj_selftest.o: include/mbj_selftest.c include/mbj_selftest.h $(interface) $(BUILD)/settings
	@mkdir -p $(@D)
	$(compile)

# A build whose exports end in its level, and whose other names are local, so that a library may hold both.
$(BUILD)/%/renamed.o: $(BUILD)/%/proved.a $(BUILD)/%/mbj_processor.o $(BUILD)/mbj_selftest.o $(BUILD)/mbj_heap_choice.o packaging/renamed
	AR='$(AR)' packaging/renamed _$(*:x86-64-%=%) $@ $(BUILD)/$*/proved.a $(BUILD)/$*/mbj_processor.o $(BUILD)/mbj_selftest.o \
	    $(BUILD)/mbj_heap_choice.o $(exports) mbj_selftest

dropin: $(dropin)

# What an earlier call built for the other version isn't left to be installed.
$(dropin): $(dropin-objects) $(dropin-builds) packaging/dropin.map
	@rm -f $(filter-out $@ $(dropin-objects),$(wildcard $(BUILD)/dropin/libIPSec_MB.so.* $(BUILD)/dropin/version_*.o))
	$(CC) $(plain) $(LDFLAGS) -shared -Wl,-soname,$(@F) -Wl,--version-script=packaging/dropin.map -Wl,-z,text -Wl,-z,defs \
	    -o $@ $(filter %.o,$^)

# The checker holds the drop-in's functions under other names, and a jump for each function of Intel's library that it hasn't itself.
SHADOWDIR ?= $(PREFIX)/lib/mbj-shadow
IPSEC_MB ?= $(shell $(CC) -print-file-name=libIPSec_MB.so)

shadow := $(BUILD)/shadow/libIPSec_MB.so.1
shadow-objects := $(patsubst compat/shadow/%.c,$(BUILD)/shadow/%.o,$(wildcard compat/shadow/*.c))
compile-shadow = $(CC) -std=c11 -D_GNU_SOURCE -Wall -Wextra $(CPPFLAGS) $(plain) -march=x86-64 -fPIC -fvisibility=hidden \
    -Iinclude -Icompat -Icompat/shadow -I$(BUILD)/shadow $(here) -c -o $@ $<

$(BUILD)/shadow/%.o: compat/shadow/%.c $(wildcard compat/*.h compat/shadow/*.h) include/mbj_shadow.h $(interface) $(BUILD)/settings
	@mkdir -p $(@D)
	$(compile-shadow)

$(BUILD)/shadow/codes.inc: packaging/codes $(BUILD)/settings
	@mkdir -p $(@D)
	CC='$(CC)' packaging/codes > $@

$(BUILD)/shadow/code_names.o: $(BUILD)/shadow/codes.inc

$(BUILD)/shadow/forward.S: $(shadow-objects) $(wildcard $(IPSEC_MB)) packaging/forwarded
	CC='$(CC)' packaging/forwarded '$(IPSEC_MB)' $(shadow-objects) > $@

$(BUILD)/shadow/forward.o: $(BUILD)/shadow/forward.S
	$(CC) -c -o $@ $<

$(BUILD)/shadow/dropin.o: $(dropin-objects) $(dropin-builds) packaging/inside
	packaging/inside '$(IPSEC_MB)' proved_ $@ $(filter %.o,$^)

shadow: $(shadow)

$(shadow): $(shadow-objects) $(BUILD)/shadow/forward.o $(BUILD)/shadow/dropin.o packaging/shadow.map
	$(CC) $(plain) $(LDFLAGS) -shared -pthread -Wl,-soname,libIPSec_MB.so.1 -Wl,--version-script=packaging/shadow.map -Wl,-z,text \
	    -Wl,-z,defs -Wl,-z,nodelete -o $@ $(filter %.o,$^) -ldl

install-shadow:
	@[ -f $(shadow) ] || { echo 'nothing is built: run make shadow first' >&2; exit 1; }
	$(INSTALL) -D -m 755 -t $(call quoted,$(DESTDIR)$(SHADOWDIR)) $(shadow)
	$(INSTALL) -D -m 644 -t $(call quoted,$(DESTDIR)$(INCLUDEDIR)) include/mbj_shadow.h

install-dropin:
	@[ -n '$(built-dropin)' ] || { echo 'nothing is built: run make dropin first' >&2; exit 1; }
	$(INSTALL) -D -m 755 -t $(call quoted,$(DESTDIR)$(DROPINDIR)) $(built-dropin)

# ---- tests ----

# The examples' texts are compared with those of mbjobs. Without that program known answers alone are compared.
check: all $(program)
	BUILD=$(call quoted,$(abspath $(BUILD))) MBJOBS=$(call quoted,$(abspath $(program))) CPU=$(CPU) CC='$(CC)' \
	    tests/c/$(if $(program),run,known)

check-dropin: all $(dropin)
	BUILD=$(call quoted,$(abspath $(BUILD))) CPU=$(CPU) CC='$(CC)' HEADERS=$(call quoted,$(HEADERS)) tests/c/dropin

check-shadow: all $(shadow)
	BUILD=$(call quoted,$(abspath $(BUILD))) CPU=$(CPU) CC='$(CC)' MBJOBS=$(call quoted,$(MBJOBS)) tests/shadow/run

# ---- installing ----

override PREFIX := $(abspath $(PREFIX))

CMAKEDIR := $(LIBDIR)/cmake/mbj
HWCAPSDIR := $(LIBDIR)/glibc-hwcaps/$(avx2)

headers := $(interface) include/mbj_selftest.h
documents := README.md CHANGELOG.md $(wildcard docs/*.md docs/*.svg)
examples := $(wildcard examples/c/*.[ch]) include/mbj_heap_pool.c include/mbj_heap_wiping.c include/mbj_symbols.c include/mbj_selftest.c
described := $(LIBDIR)/pkgconfig/mbj.pc $(LIBDIR)/pkgconfig/mbj-static.pc $(CMAKEDIR)/mbjConfig.cmake $(CMAKEDIR)/mbjConfigVersion.cmake

# What goes where, by what is done with it. Files that aren't there are left out.
define files
$(call $(1),644,$(headers),$(INCLUDEDIR))
$(call $(1),644,$(main)/$(static),$(LIBDIR))
$(call $(1),755,$(main)/$(shared),$(LIBDIR))
$(call $(1),755,$(beside:%=%/$(shared)),$(HWCAPSDIR))
$(call $(1),644,man/mbjobs.1,$(MANDIR)/man1)
$(call $(1),644,$(documents),$(DOCDIR))
$(call $(1),644,$(examples),$(DOCDIR)/examples)
endef

put = $(if $(wildcard $(2)),$(INSTALL) -D -m $(1) -t $(call quoted,$(DESTDIR)$(3)) $(wildcard $(2)))
drop = rm -f $(foreach file,$(notdir $(2)),$(call quoted,$(DESTDIR)$(3)/$(file)))

fill = sed -e $(call quoted,s|@PREFIX@|$(PREFIX)|; s|@LIBDIR@|$(LIBDIR:$(PREFIX)/%=$${prefix}/%)|) \
    -e $(call quoted,s|@INCLUDEDIR@|$(INCLUDEDIR:$(PREFIX)/%=$${prefix}/%)|; s|@VERSION@|$(version)|; s|@MAJOR@|$(major)|) \
    -e "s|@TO_INCLUDEDIR@|$$(realpath -ms --relative-to=$(call quoted,$(CMAKEDIR)) $(call quoted,$(INCLUDEDIR)))|"

install:
	@[ -f $(main)/$(shared) ] || { echo 'nothing is built for $(CPU): run make first' >&2; exit 1; }
	rm -f $(call quoted,$(DESTDIR)$(HWCAPSDIR)/$(shared))
	$(call files,put)
	$(if $(wildcard $(program)),$(INSTALL) -D -m 755 $(program) $(call quoted,$(DESTDIR)$(BINDIR)/mbjobs))
	ln -sf $(shared) $(call quoted,$(DESTDIR)$(LIBDIR)/libmbj_c.so)
	@$(foreach file,$(described),$(INSTALL) -d $(call quoted,$(DESTDIR)$(dir $(file))) && \
	    $(fill) packaging/$(notdir $(file)).in > $(call quoted,$(DESTDIR)$(file)) && ):

uninstall:
	$(call files,drop)
	rm -f $(foreach file,$(BINDIR)/mbjobs $(LIBDIR)/libmbj_c.so $(described),$(call quoted,$(DESTDIR)$(file)))
	rmdir $(foreach folder,$(DOCDIR)/examples $(DOCDIR) $(CMAKEDIR) $(HWCAPSDIR),$(call quoted,$(DESTDIR)$(folder))) 2>/dev/null || true

# ---- the rest ----

help:
	$(info $(help))@:

clean:
	rm -rf $(BUILD)

.PHONY: all check check-dropin check-shadow install uninstall mbjobs dropin install-dropin shadow install-shadow help clean FORCE
.DELETE_ON_ERROR:
.SECONDARY:
# rt works in one folder, one call after another.
.NOTPARALLEL:
