# `make` builds what `make install` installs, and proves it on the way: `make program` out/hwdb, `make lib` the C library,
# out/libhwdb.so.0 and out/libhwdb.a, and out/libhwdb-udev.so.0 with libudev's calls over it.
# `make unproved` builds out/hwdb-unproved in two or three minutes, without a proof, and runs it; it says of itself that it isn't proved.
# `make completions` writes the completions and README's table of commands from the program's help.
# `make demo` asks a file of our own, by the proved program if it is built, else by the one without proofs; it takes three minutes at most.
# `make check` is the whole gate, `make check-edits` tries more wrong bodies,
# `make check-survivors` those that the prover accepts, `make check-peer` compares with Debian's own files and releases, `make bench` measures
# on them. `make check-power` cuts the power of a guest while it updates, and `make check-power-edits` tries wrong bodies so.
# `make fuzz` gives changed files to the C library's calls, and changed text and rules files to the program: each for five minutes, or as long as
# SECONDS says.
# `make install` and `make uninstall` go by the folders below and need no toolchain, `make deb` makes Debian packages in out/, `make
# dist` an archive of the sources, and `make check-package` tries all but the last; it installs what it needs with apt-get.
VERSION := $(shell cat VERSION)
PREFIX ?= /usr/local
DESTDIR ?=
BINDIR ?= $(PREFIX)/bin
MANDIR ?= $(PREFIX)/share/man
DOCDIR ?= $(PREFIX)/share/doc/hwdb
BASHDIR ?= $(PREFIX)/share/bash-completion/completions
ZSHDIR ?= $(PREFIX)/share/zsh/site-functions
FISHDIR ?= $(PREFIX)/share/fish/vendor_completions.d
UNITDIR ?= $(PREFIX)/lib/systemd/system
LIBDIR ?= $(PREFIX)/lib
INCLUDEDIR ?= $(PREFIX)/include
# `yes` also installs the program under the name systemd-hwdb, as a link.
SYSTEMD_HWDB ?= no
# What README has its readers look at.
CITED := CONTRIBUTING.md SECURITY.md $(wildcard docs/*.md docs/screen.* examples/*)
# What is installed and tested: the program that `make` built, or another one.
PROGRAM ?= out/hwdb
# The library that is installed, libhwdb.a and libhwdb-udev.so.0 beside it; none where this is empty.
LIBRARY ?= out/libhwdb.so.0
# What the library's C is compiled with, and where the libraries are put.
CC ?= cc
CFLAGS ?= -O2
LIBRARIES ?= out
# How long each part of `make fuzz` runs.
SECONDS ?= 300
# How often `make check-power` cuts the power on each file system.
CUTS ?= 40
# What `make demo` and `make unproved` ask.
ASKED := ask examples/workshop.hwdb usb:v1209p0007d0101
# What is installed, each as PACKAGE:MODE:SOURCE:PLACE. The names in @ of a source that ends in `.in` are filled in; a link's source is
# what it says. `make files` prints packages and places, for packaging/deb and tests/package.
FILES = \
	'hwdb:755:$(PROGRAM):$(BINDIR)/hwdb' \
	'hwdb:644:man/hwdb.8:$(MANDIR)/man8/hwdb.8' \
	'hwdb:644:man/hwdb-format.7:$(MANDIR)/man7/hwdb-format.7' \
	'hwdb:644:completions/hwdb.bash:$(BASHDIR)/hwdb' \
	'hwdb:644:completions/_hwdb:$(ZSHDIR)/_hwdb' \
	'hwdb:644:completions/hwdb.fish:$(FISHDIR)/hwdb.fish' \
	'hwdb:644:packaging/hwdb-update.service.in:$(UNITDIR)/hwdb-update.service' \
	$(foreach file,README.md CHANGELOG.md LICENSE $(CITED),'hwdb:644:$(file):$(DOCDIR)/$(file)')
LIBRARY_FILES = \
	'libhwdb0:644:$(LIBRARY):$(LIBDIR)/libhwdb.so.0' \
	'libhwdb0:644:$(dir $(LIBRARY))libhwdb-udev.so.0:$(LIBDIR)/libhwdb-udev.so.0' \
	'libhwdb-dev:link:libhwdb.so.0:$(LIBDIR)/libhwdb.so' \
	'libhwdb-dev:644:$(dir $(LIBRARY))libhwdb.a:$(LIBDIR)/libhwdb.a' \
	'libhwdb-dev:644:c/hwdb.h:$(INCLUDEDIR)/hwdb.h' \
	'libhwdb-dev:644:c/hwdb.pc.in:$(LIBDIR)/pkgconfig/hwdb.pc' \
	'libhwdb-dev:644:man/libhwdb.3:$(MANDIR)/man3/libhwdb.3'
FILLED = 's|@bindir@|$(BINDIR)|; s|@prefix@|$(PREFIX)|; s|@libdir@|$(LIBDIR)|; s|@includedir@|$(INCLUDEDIR)|; s|@version@|$(VERSION)|'
WARNINGS := -std=c11 -Wall -Wextra -Werror
HARDENED := -Wl,-z,relro -Wl,-z,now -Wl,-z,noexecstack -Wl,--no-undefined

.PHONY: all program lib linked-lib hardened-lib kit unproved completions demo check check-edits check-survivors fuzz check-peer check-power check-power-edits check-package bench \
	install uninstall files deb dist clean

# The library over what the program's proofs built; c/over-proved proves its calls.
all: program
	c/over-proved
	$(MAKE) linked-lib

# What building needs, before anything is proved.
kit:
	@command -v rt >/dev/null || { echo "make: building needs the Rattle toolchain: the kit rattle-kit-13f, with its command rt on" \
		"the path (README.md, 'Install')" >&2; exit 1; }
	@missing=; for tool in python3 $(firstword $(CC)) ld objcopy ar; do \
		command -v "$$tool" >/dev/null || missing="$$missing $$tool"; \
	done; \
	[ -z "$$missing" ] || { echo "make: building needs what isn't on the path:$$missing (README.md, 'Install')" >&2; exit 1; }

program: kit
	cd crates/hwdb && rt run -- ask /dev/null none
	mkdir -p out
	cp crates/hwdb/out/hwdb out/hwdb

lib: kit
	cd crates/hwdb_c && rt lib
	cp "$$(dirname "$$(rt doc)")/c/liblibc_c.a" crates/hwdb_c/out
	$(MAKE) linked-lib

# The proved calls and c/hwdb.c as one object in which only the names of c/hwdb.map are left for others; c/udev.c over it. On an
# older processor than the proved calls were compiled for, the loader refuses what this object is linked into.
linked-lib:
	mkdir -p $(LIBRARIES)
	$(CC) $(WARNINGS) $(CPPFLAGS) $(CFLAGS) -fPIC -c -o $(LIBRARIES)/hwdb.o c/hwdb.c
	ld -r -z x86-64-v2 -o $(LIBRARIES)/libhwdb.o $(LIBRARIES)/hwdb.o --whole-archive crates/hwdb_c/out/libhwdb_c.a --no-whole-archive \
		crates/hwdb_c/out/liblibc_c.a
	objcopy --wildcard --keep-global-symbol='sd_hwdb_*' --keep-global-symbol=hwdb_check $(LIBRARIES)/libhwdb.o
	rm -f $(LIBRARIES)/libhwdb.a
	ar rcsD $(LIBRARIES)/libhwdb.a $(LIBRARIES)/libhwdb.o
	$(CC) -shared -Wl,-soname,libhwdb.so.0 -Wl,--version-script=c/hwdb.map $(LDFLAGS) $(HARDENED) -o $(LIBRARIES)/libhwdb.so.0 \
		$(LIBRARIES)/libhwdb.o
	$(CC) $(WARNINGS) $(CPPFLAGS) $(CFLAGS) -fPIC -shared -Wl,-soname,libhwdb-udev.so.0 -Wl,--version-script=c/udev.map \
		$(LDFLAGS) $(HARDENED) -o $(LIBRARIES)/libhwdb-udev.so.0 c/udev.c $(LIBRARIES)/libhwdb.a
	rm -f $(LIBRARIES)/hwdb.o $(LIBRARIES)/libhwdb.o

# The same as Debian has C compiled.
hardened-lib: out/libhwdb.so.0
	eval "$$(dpkg-buildflags --export=sh)" && $(MAKE) linked-lib LIBRARIES=out/hardened

unproved: kit
	tests/proofs/unproved out/hwdb-unproved
	out/hwdb-unproved $(ASKED)

# The completions, and README's table of commands.
completions: $(PROGRAM)
	completions/from-help '$(PROGRAM)'

# A first answer, before anything is proved.
demo: kit
	@if [ -x out/hwdb ]; then set -x; out/hwdb $(ASKED); else \
		echo 'make demo: builds the program without its proofs, in two or three minutes. After that `make` proves it, in some 40.'; \
		$(MAKE) --no-print-directory unproved; \
	fi

# All of the gate; `tests/gate SCRIPT..` runs some of its scripts on what is built.
check: kit
	tests/gate

# `make check-edits SHARE=3/10` tries the third tenth of all wrong bodies, whatever their crates.
check-edits:
	tests/proofs/compiled
ifneq ($(SHARE),)
	tests/proofs/wrong-bodies --share $(SHARE)
else
	tests/proofs/wrong-bodies $(CRATES)
	tests/proofs/definitions $(CRATES)
endif

# Wrong bodies that are proved: a script of tests/ sees each. And what `make unproved` builds.
check-survivors:
	tests/proofs/unproved --judge
	tests/proofs/caught $(EDITS)

# The first keeps what is new to it in out/, and both what they find.
fuzz: $(PROGRAM) out/libhwdb.so.0
	tests/hostile/fuzz '$(PROGRAM)' $(SECONDS)
	tests/random/fuzz-texts '$(PROGRAM)' $(SECONDS)

check-peer: $(PROGRAM) out/libhwdb.so.0
	tests/proofs/key-names
	tests/peer/peer out/hwdb
	tests/peer/users out/hwdb
	tests/peer/clients out/hwdb
	tests/peer/device out/hwdb
	tests/peer/near out/hwdb
	tests/peer/editors out/hwdb
	tests/peer/hooks out/hwdb
	tests/peer/parse-hwdb out/hwdb
	tests/peer/rules out/hwdb
	tests/peer/own-rules out/hwdb
	tests/peer/random-rules out/hwdb 60
	tests/peer/findings out/hwdb
	tests/peer/machines out/hwdb
	tests/peer/releases out/hwdb out/libhwdb.so.0
	tests/power/power out/hwdb 1

# Both need root, for apt-get.
check-power: $(PROGRAM)
	tests/power/power '$(PROGRAM)' $(CUTS)

check-power-edits: kit
	tests/power/seen

# `tests/peer/speed-page out/speed.tsv` writes the tables of pages of it.
bench: all
	tests/peer/bench out/hwdb out

# Only where there is no program yet, so that root needs no toolchain to install what a user built.
out/hwdb:
	$(MAKE) program

out/libhwdb.so.0:
	$(MAKE) lib

install: $(PROGRAM) $(LIBRARY)
	for row in $(FILES) $(if $(LIBRARY),$(LIBRARY_FILES)); do \
		IFS=:; set -f; set -- $$row; unset IFS; place='$(DESTDIR)'"$$4"; \
		case $$2:$$3 in \
		link:*) install -d "$${place%/*}" && ln -sf "$$3" "$$place" ;; \
		*.in) install -d "$${place%/*}" && sed $(FILLED) "$$3" >"$$place" && chmod "$$2" "$$place" ;; \
		*) install -D -m "$$2" "$$3" "$$place" ;; \
		esac || exit; \
	done
ifeq ($(SYSTEMD_HWDB),yes)
	ln -sf hwdb '$(DESTDIR)$(BINDIR)/systemd-hwdb'
endif
ifeq ($(DESTDIR),)
ifneq ($(LIBRARY),)
	@PATH="$$PATH:/usr/sbin:/sbin"; [ "$$(id -u)" -ne 0 ] || ldconfig; ldconfig -p | grep -qF '$(LIBDIR)/libhwdb.so.0' || \
		echo 'Programs find libhwdb.so.0 with LD_LIBRARY_PATH=$(LIBDIR), or once root has put this folder into a file of' \
			'/etc/ld.so.conf.d and has called ldconfig.'
endif
endif

# Takes away what `make install` put there, with its own folder, and leaves folders that others use too. A systemd-hwdb or
# libhwdb.so that isn't the link to ours stays.
uninstall:
	for row in $(FILES) $(LIBRARY_FILES); do \
		IFS=:; set -f; set -- $$row; unset IFS; place='$(DESTDIR)'"$$4"; \
		[ "$$2" != link ] || [ "$$(readlink "$$place")" = "$$3" ] || continue; \
		rm -f "$$place" || exit; \
	done
	for folder in docs examples .; do \
		[ ! -d '$(DESTDIR)$(DOCDIR)'"/$$folder" ] || rmdir --ignore-fail-on-non-empty '$(DESTDIR)$(DOCDIR)'"/$${folder%.}" || exit; \
	done
	[ "$$(readlink '$(DESTDIR)$(BINDIR)/systemd-hwdb')" != hwdb ] || rm '$(DESTDIR)$(BINDIR)/systemd-hwdb'

# The package and the place of each file that is installed.
files:
	@for row in $(FILES) $(LIBRARY_FILES); do echo "$${row%%:*} $${row##*:}"; done

# out/NAME_VERSION_ARCHITECTURE.deb of hwdb, libhwdb0 and libhwdb-dev, of the same bytes for the same commit and program.
deb: $(PROGRAM) hardened-lib
	packaging/deb '$(PROGRAM)' out/hardened/libhwdb.so.0 out

# The sources of this commit.
dist:
	mkdir -p out
	git archive --format=tar.gz --prefix='hwdb-$(VERSION)/' -o 'out/hwdb-$(VERSION).tar.gz' HEAD

# Needs root, for apt-get and for a root of its own.
check-package: $(PROGRAM) out/libhwdb.so.0
	tests/package/package-tools
	$(MAKE) hardened-lib
	tests/run/words '$(PROGRAM)'
	tests/package/completions '$(PROGRAM)'
	tests/package/lint '$(PROGRAM)'
	tests/package/installed '$(PROGRAM)'
	tests/package/package '$(PROGRAM)' out/hardened/libhwdb.so.0

clean:
	rm -rf out crates/*/out
