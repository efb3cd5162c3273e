# Builds, runs, tests and installs the program strm, the library for C, and the tools in Python. Rattle's command `rt` builds the program and the
# library; it needs Python 3, and for the library also `cc` and binutils. docs/GATE.md says what the tests need.
#
# Without `rt`, which comes in the toolchain's kit (README.md): the folder release has the proved program and library, which `make try` runs and
# `make check` tests. The tools need Python 3.8 or later alone, and `make install-tools` installs them. The rules lint, help, pages,
# install-pages, uninstall, view-test, pictures and vendor need no `rt` either.

SHELL := bash
.SHELLFLAGS := -o pipefail -c

PREFIX ?= /usr/local
SHARE := $(DESTDIR)$(PREFIX)/share
# The crate that `make vendor` copies into the repository at TO, with the crates that it uses.
CRATE ?= strm_pool
# The script that `make try` executes.
SCRIPT ?= examples/first_run.strm
# Where `make dist` puts what it builds.
DIST ?= dist
# The prefix that the installed strm.pc names, the one that installed pages name, or nothing in an archive, and where zsh finds functions below
# share.
PC_PREFIX ?= $(PREFIX)
PAGE_PREFIX ?= $(PC_PREFIX)
ZSH ?= zsh/site-functions
# The version, which the installed manuals name.
VERSION := $(shell cat VERSION)
BUILT := crates/strm_driver/out/strm_driver
# What is installed of what is built. tools/uninstall has another file installed, to learn the names of all that is.
STRM := $(BUILT)
ARCHIVE = $(BUILD)/libstrm.a
SHARED = $(BUILD)/libstrm.so
ARCHIVE_MT = $(BUILD)/libstrm_mt.a
SHARED_MT = $(BUILD)/libstrm_mt.so
ARCHIVE_DDI = $(BUILD)/libstrm_ddi.a
TRACE = $(BUILD)/libstrm_trace.so
# How benchmarks are started, which read the limits of strm in tools/strm_tools.
BENCH := PYTHONPATH="$(CURDIR)/tools" python3
# The program that measures rounds of calls, for bench-library and bench-c.
ROUNDS := crates/strm_bench/out/strm_bench
SOURCES := crates.txt HANDLES $(shell find crates -path '*/out' -prune -o \( -name '*.rt' -o -name '*.antt' \) -print)
# The target of the library: nothing for x86-64, or what ARM says. Its processor, the tools that compile for it, and the folder of
# what is built for it.
TARGET ?=
ARM := aarch64-unknown-linux-gnu
PROCESSOR := $(firstword $(subst -, ,$(TARGET)))
TOOLS_FOR := $(addsuffix -linux-gnu-,$(PROCESSOR))
BUILD := $(if $(TARGET),build/$(PROCESSOR),build)
# The proved part of libstrm.a, which `rt lib` builds.
PROVED := $(if $(TARGET),$(BUILD)/libstrm_c.a,crates/strm_c/out/libstrm_c.a)
# What programs that are linked with the shared library need when they run. The number rises if programs that were linked before would not run.
SONAME := libstrm.so.0
SONAME_MT := libstrm_mt.so.0
# The output of `rt` when it last proved and built the program.
LOG := build/proving.log

# The tools that are installed, and the files of the package that they share.
TOOLS := $(notdir $(wildcard tools/strm-*))
MODULES := $(shell cd tools && find strm_tools -name __pycache__ -prune -o -type f -print)

RT := $(shell command -v rt 2>/dev/null)
# Stops make with one line if there is no `rt`.
NEEDS_RT = $(if $(RT),,$(error no rt on PATH, so nothing is proved or built; release/ has strm and libstrm.a, proved and built: make try and make check run them, and make install and make install-lib take them by STRM=release/strm ARCHIVE=release/libstrm.a SHARED=release/libstrm.so (README.md, "Without rt")))

# Has a command execute a script as strm does, which prints replies alone, and prints each beside the script's command.
LISTED = text=$$($(1) <"$(2)") && tools/strm-list --report "$(2)" - <<<"$$text"

# The variables that were given on the command line of make. What runs a script of the gate without them, without those that say where make installs
# and for what it builds, and without what else says how make was called: a make that the script starts would take all of these for its own.
GIVEN = $(foreach name,$(.VARIABLES),$(if $(filter command,$(firstword $(origin $(name)))),$(name)))
ALONE = env $(addprefix -u ,MAKEFLAGS MAKELEVEL MAKEOVERRIDES MFLAGS GNUMAKEFLAGS MAKE_TERMOUT MAKE_TERMERR PREFIX DESTDIR TARGET $(GIVEN))

.PHONY: run help try test test-arm check gate-times cases edits lint soak soak-mt field view-test pages pictures bench bench-lines bench-library bench-batches bench-census bench-header bench-lock bench-c bench-bindings bench-stores bench-peers bench-mt strm install install-pages install-tools install-docs uninstall lib install-lib dist release vendor

# Runs examples/first_run.strm on the proved program (default). `make` alone does this and does not list rules, so that people who type `make`
# and then `sudo make install` do not prove the program as root.
run: $(BUILT)
	@$(call LISTED,$(BUILT) --serial,examples/first_run.strm)

# Lists these rules. What a line says is the first sentence of the comment above the rule.
help:
	@awk '/^#/ { text = text substr($$0, 2); next } /^[a-z-]+:/ && text { sub(/\. .*|\.$$/, "", text); sub(/:.*/, ""); printf "%-14s%s\n", $$0, text } { text = "" }' Makefile

# Runs the tests of the library for ARM in an emulator. It needs Debian's gcc-aarch64-linux-gnu and qemu-user.
test-arm:
	@$(MAKE) -s lib TARGET=$(ARM)
	@tests/c/run --arm build/aarch64/libstrm.a

# Executes SCRIPT, and prints each command beside its reply. SCRIPT is examples/first_run.strm if none is named; the report comes last. strm is the
# proved one in release, if that was built from these sources or there is no `rt`. Otherwise it is unproved, and takes a minute or two to build; of
# what `rt` says this shows only a failure.
try:
	@if [ -z "$(RT)" ] || tools/dist --sources strm | grep -qxFf - release/PROOF; then \
		echo "release/strm, proved and built from commit $$(sed -n 's/^Commit: //p' release/PROOF), executes $(SCRIPT)" >&2; \
		$(call LISTED,release/strm --serial,$(SCRIPT)); \
	else \
		echo "nothing is proved here: strm is built without its proofs, which takes one to two minutes, and executes $(SCRIPT)" >&2; \
		$(call LISTED,{ cd crates/strm_driver && rt try -- --serial 2>&1 >&3 | { grep -vE '^(checked|races): |^run=' >&2 || true; }; } 3>&1,$(SCRIPT)); \
	fi

# Runs the gate: all proofs, edits to be refused, tests and cases.
test:
	$(NEEDS_RT)
	@$(ALONE) .ci/gate

# Runs what of the gate needs no proof, in a few minutes. Without `rt`, tests run what is in release.
check:
	@$(ALONE) .ci/check

# Runs the gate, and puts its processor times into docs/GATE.md.
gate-times:
	$(NEEDS_RT)
	@$(ALONE) .ci/gate && .ci/times put build/gate-times.md docs/GATE.md

# Proves strm, and runs tests/cases, or those that CASES names. Once it is proved, trying a new case takes seconds.
cases: $(BUILT)
	@tests/run_cases $(BUILT) $(CASES)

# Requires the prover to refuse the edits that the gate leaves out. CRATES names crates, if not all.
edits:
	$(NEEDS_RT)
	@tests/edits $(CRATES)

# Checks scripts with shellcheck, Python with pyflakes3 and mypy.
lint:
	@tests/lint

# Has workers execute random scripts, and checks what they print. The plain model replays it. It takes SECONDS, by default a minute.
soak: $(BUILT)
	@tests/merges --seconds $(or $(SECONDS),60) $(BUILT)

# Has threads wait over strm_mt.h in drawn runs, for SECONDS. By default it takes ten minutes.
soak-mt: build/libstrm.a
	@tests/mt/run --soak $(or $(SECONDS),600) build/libstrm.a

# Records calls of ppp and lwIP, and executes them (tests/field). It fetches the sources of both from Debian. OPTIONS are those of
# tests/field_run, as --scripts N. With KEEP=DIR, that folder gets the recordings and their pages.
field: $(BUILT) build/libstrm.a
	@tests/field_run $(if $(KEEP),--keep $(KEEP)) $(OPTIONS) --library build/libstrm.a $(BUILT)

# Tests pages of tools/strm-view in Chromium. It measures how fast a page of 100,000 lines is, and puts pictures of some pages into
# build/view. It needs no `rt`. If there is no Chromium, it installs one if apt-get may.
view-test:
	@tests/view_in_browser build/view

# Makes build/example.html, the page of a recorded run. It needs Python alone, and prints a link that opens the page.
pages:
	@mkdir -p build
	@tools/strm-view examples/recorded/ppp.strm examples/recorded/ppp.text --output build/example.html
	@echo "file://$(CURDIR)/build/example.html"

# Draws the pictures in docs again. Each contains its arguments. It needs Chromium.
pictures:
	@for picture in docs/pictures/*.svg; do tools/strm-view $$(sed -n 's:^<desc>\(.*\)</desc>$$:\1:p' $$picture) --output $$picture || exit 1; done

# Runs bench-lines to bench-stores, and with PEERS=1 bench-peers. OPTIONS are those of all, as --write for docs/.
bench: bench-lines bench-library bench-batches bench-census bench-header bench-lock bench-c bench-bindings bench-stores

# Prints what a line and a call of each word cost. OPTIONS are those of bench/run.py, as --instructions, or --write for docs/.
bench-lines: $(BUILT)
	@$(BENCH) bench/run.py $(OPTIONS) $(BUILT)

# Prints what calls of the libraries cost. They are made with tokens, with registers and at a shared pool. OPTIONS are those of
# bench/library.py, as --write for docs/.
bench-library: $(ROUNDS)
	@$(BENCH) bench/library.py $(OPTIONS) $(ROUNDS)

# Prints what calls at a shared pool cost in batches. One thread makes them, and four. OPTIONS are those of bench/batches.py, as --write for
# docs/.
bench-batches: $(ROUNDS)
	@$(BENCH) bench/batches.py $(OPTIONS) $(ROUNDS)

# Prints what a look at the census without the lock costs. Workers run beside some. OPTIONS are those of bench/census.py.
bench-census: $(BUILT)
	$(NEEDS_RT)
	@$(BENCH) bench/census.py $(OPTIONS)

# Prints what a header costs that is rewritten in place. Beside it is plain Rust. OPTIONS are those of bench/header.py.
bench-header: $(BUILT)
	$(NEEDS_RT)
	@$(BENCH) bench/header.py $(OPTIONS)

# Prints what a line by four workers costs, and a lock alone. OPTIONS are those of bench/lock.py.
bench-lock: $(BUILT)
	@$(BENCH) bench/lock.py $(OPTIONS) $(BUILT)

# Prints what calls of strm.h cost, and those of a pool in C. Beside them are the calls that those of strm.h make. OPTIONS are those of
# bench/c.py, as --write for docs/. With PEERS=1, also what bench-peers prints.
bench-c: build/libstrm.a $(ROUNDS)
	@$(BENCH) bench/c.py $(OPTIONS) build/libstrm.a $(ROUNDS)
	@$(if $(PEERS),$(BENCH) bench/peers.py $(OPTIONS) build/libstrm.a)

# Prints what a packet costs in C++, Rust and Python. Beside it is C. OPTIONS are those of bench/bindings.py, as --write for docs/.
bench-bindings: build/libstrm.a build/libstrm.so
	@$(BENCH) bench/bindings.py $(OPTIONS) build/libstrm.a

# Counts loads that span two stores, in the works of bench-peers. It fails if there are any. OPTIONS are those of bench/forwarding.py.
bench-stores: build/libstrm.a
	@$(BENCH) bench/forwarding.py $(OPTIONS) build/libstrm.a

# Prints what the same work costs over strm.h, DPDK, lwIP and GLib. A pool in C does it too. This names those whose Debian package is not
# installed. OPTIONS are those of bench/peers.py, as --write for docs/.
bench-peers: build/libstrm.a
	@$(BENCH) bench/peers.py $(OPTIONS) build/libstrm.a

# Prints what hand-overs between threads cost, beside peers. It draws build/waiting.svg. OPTIONS are those of bench/mt.py.
bench-mt: build/libstrm.a
	@$(BENCH) bench/mt.py $(OPTIONS) build/libstrm.a

# Puts the proved program at build/strm.
strm: build/strm

build/strm: $(BUILT)
	@install -D -m 755 $(BUILT) build/strm

# The lines by which a shell finds what is installed, unless it is to be moved from DESTDIR.
FINDS = @$(if $(DESTDIR),,printf '%s\n' 'export PKG_CONFIG_PATH=$(PREFIX)/lib/pkgconfig$${PKG_CONFIG_PATH:+:$$PKG_CONFIG_PATH}' \
	'export LD_LIBRARY_PATH=$(PREFIX)/lib$${LD_LIBRARY_PATH:+:$$LD_LIBRARY_PATH}')

# Installs strm, the library for C, tools and pages below PREFIX. The program and the library are proved first. With a TARGET it leaves out strm.
# It ends with the lines of install-lib, and one for commands if PATH lacks them.
install: WHERE $(if $(TARGET),,$(STRM)) install-pages install-tools install-docs install-lib
	$(if $(TARGET),,install -D -m 755 $(STRM) $(DESTDIR)$(PREFIX)/bin/strm)
	$(FINDS)
	@$(if $(DESTDIR),,[[ ":$$PATH:" == *":$(PREFIX)/bin:"* ]] || echo 'export PATH=$(PREFIX)/bin:$$PATH')

# Says where, before anything is proved or installed.
.PHONY: WHERE
WHERE:
	# All is installed below $(DESTDIR)$(PREFIX)/. PREFIX=DIR names another folder.

# Removes what `make install` installed below PREFIX. DESTDIR must be the same too. Of the folders that it made it removes those that are empty.
uninstall:
	@tools/uninstall "$(PREFIX)" "$(DESTDIR)"

# The folders that a path is in. The folders of PREFIX that other programs install into too. Those of them, and that they are in, which are not
# there yet; none with DESTDIR, where packages are put together.
above = $(if $(filter-out /,$(dir $(1))),$(call above,$(patsubst %/,%,$(dir $(1)))) $(patsubst %/,%,$(dir $(1))))
INTO := bin include lib/cmake lib/pkgconfig share/bash-completion/completions share/doc share/man/man1 share/man/man3 share/vim/vimfiles/ftdetect share/vim/vimfiles/syntax share/$(ZSH)
MISSING := $(if $(DESTDIR),,$(foreach it,$(sort $(foreach folder,$(INTO),$(call above,$(abspath $(PREFIX))/$(folder)/strm))),$(if $(wildcard $(it)),,$(it))))

# Installs the manuals of section 1 and the completions of shells. These are bash and zsh, and nothing is built. The completions of strm are
# also those of the tools.
install-pages:
	tools/man_pages 1 $(SHARE)/man/man1
	install -D -m 644 completions/strm.bash $(SHARE)/bash-completion/completions/strm
	install -D -m 644 completions/_strm $(SHARE)/$(ZSH)/_strm
	for tool in $(TOOLS); do ln -sf strm $(SHARE)/bash-completion/completions/$$tool || exit; done

# What makes an extension for VS Code of the grammar beside it, once share/strm/vscode is linked into ~/.vscode/extensions.
VSCODE := {"name": "strm", "version": "$(VERSION)", "engines": {"vscode": "*"}, "contributes": {"languages": [{"id": "strm", "extensions": [".strm"]}], "grammars": [{"language": "strm", "scopeName": "source.strm", "path": "./strm.tmLanguage.json"}]}}

# Installs the tools, their manuals, and the package for Python. By this they use the library. They need Python alone. All are in
# PREFIX/share/strm, with links in PREFIX/bin. There, FOLDERS lists the folders that installs made, for tools/uninstall.
install-tools: WHERE install-pages
	@$(if $(MISSING),install -d $(SHARE)/strm && printf '%s\n' $(MISSING) >>$(SHARE)/strm/FOLDERS)
	rm -rf $(SHARE)/strm/strm_tools
	for file in $(MODULES); do install -D -m 644 tools/$$file $(SHARE)/strm/$$file || exit; done
	install -m 644 VERSION $(SHARE)/strm/VERSION
	install -D -m 644 bindings/python/strm/__init__.py $(SHARE)/strm/strm/__init__.py
	echo 'autocmd BufRead,BufNewFile *.strm setfiletype strm' | install -D -m 644 /dev/stdin $(SHARE)/vim/vimfiles/ftdetect/strm.vim
	commands=$$(tools/strm-check --words | sed -n '/^Messages/,$$s/^  \([a-z][a-z]*\).*/\1/p' | paste -sd '|') && \
	    for file in vim/vimfiles/syntax/strm.vim strm/vscode/strm.tmLanguage.json; do \
	        sed "s/@COMMANDS@/$$commands/" completions/$${file##*/} | install -D -m 644 /dev/stdin $(SHARE)/$$file || exit; \
	    done
	echo '$(VSCODE)' | install -m 644 /dev/stdin $(SHARE)/strm/vscode/package.json
	install -d $(DESTDIR)$(PREFIX)/bin
	for tool in $(TOOLS); do install -m 755 tools/$$tool $(SHARE)/strm && ln -sf ../share/strm/$$tool $(DESTDIR)$(PREFIX)/bin/$$tool || exit; done

# Installs the examples and the pages for users. These are the licence, what README.md is for users of what is installed, and the pages of
# docs that they read. All are in PREFIX/share/strm. In share/doc, which images for containers often leave out, are links to them.
install-docs:
	for file in $$(find examples -type f); do install -D -m 644 $$file $(SHARE)/strm/$$file || exit; done
	install -m 644 LICENSE $(SHARE)/strm/LICENSE
	tools/doc_pages $(SHARE)/strm $(PAGE_PREFIX)
	install -d $(SHARE)/doc/strm
	for name in README.md LICENSE docs examples; do rm -rf $(SHARE)/doc/strm/$$name && ln -s ../../strm/$$name $(SHARE)/doc/strm || exit; done

# Builds the library for C, libstrm_mt and libstrm_ddi in build. Beside these is what strm-trace takes. With
# TARGET=aarch64-unknown-linux-gnu they are for ARM, in build/aarch64, by Debian's gcc-aarch64-linux-gnu. The pkg-config file is build/strm.pc.
lib: $(ARCHIVE) $(SHARED) $(ARCHIVE_MT) $(SHARED_MT) $(ARCHIVE_DDI) $(TRACE) build/strm.pc

ifneq ($(TARGET),)
CC := $(TOOLS_FOR)gcc
AR := $(TOOLS_FOR)ar
endif
OBJCOPY ?= $(TOOLS_FOR)objcopy

# The library is the proved part, with tables for backtraces on x86-64, and the objects of C around it: one that checks pointers, the report, the heap, the
# region that the heap takes pieces of, and what needs libc. The functions of the heap get the names that c/heap.c has.
PARTS := strm report heap region malloc
$(BUILD)/libstrm.a: $(PROVED) $(PARTS:%=c/%.c) c/heap.h c/strm_c.h c/strm.h tools/unwind_tables
	@mkdir -p $(BUILD)
	cp $(PROVED) $@
	cd $(BUILD) && $(AR) x libstrm.a strm_c.o
	$(if $(TARGET),,tools/unwind_tables build/strm_c.o build/strm_c.o || echo "no backtraces from inside libstrm.a" >&2)
	cd $(BUILD) && $(OBJCOPY) $(foreach call,alloc realloc dealloc,--redefine-sym rattle_$(call)=strm_heap_$(call)) strm_c.o
	for part in $(PARTS); do $(CC) -std=c89 -O2 -fPIC -Wall -Wextra -pedantic -Ic -c c/$$part.c -o $(BUILD)/$$part.o || exit; done
	cd $(BUILD) && $(AR) rD libstrm.a strm_c.o $(PARTS:%=%.o)

# The shared library has the same parts, and exports the calls of strm.h alone.
$(BUILD)/libstrm.so: $(BUILD)/libstrm.a tools/c_symbols
	tools/c_symbols >$(BUILD)/libstrm.map
	cd $(BUILD) && $(CC) -shared -Wl,-soname,$(SONAME),--version-script,libstrm.map,-z,defs,-z,relro,-z,now \
		-Wl,--whole-archive libstrm.a -Wl,--no-whole-archive -o libstrm.so

# The library that writes traces has all of the archive inside. There, the calls that it wraps get the names that its own objects call.
TRACE_PARTS := trace trace_script
$(BUILD)/libstrm_trace.so: $(ARCHIVE) $(TRACE_PARTS:%=c/%.c) c/trace.h c/strm_trace.h c/strm_c.h c/strm.h tools/c_symbols
	@mkdir -p $(BUILD)/trace
	for part in $(TRACE_PARTS); do $(CC) -std=gnu11 -O2 -fPIC -Wall -Wextra -Ic -c c/$$part.c -o $(BUILD)/trace/$$part.o || exit; done
	$(TOOLS_FOR)nm -u $(TRACE_PARTS:%=$(BUILD)/trace/%.o) | sed -n 's/.* [Uw] strm_untraced_\(.*\)/strm_\1 strm_untraced_\1/p' | sort -u >$(BUILD)/trace/names
	$(OBJCOPY) --redefine-syms=$(BUILD)/trace/names $(ARCHIVE) $(BUILD)/trace/untraced.a
	tools/c_symbols | sed 's/^local:/\tstrm_trace_label;\n&/' >$(BUILD)/trace/map
	$(CC) -shared -Wl,-soname,libstrm_trace.so,--version-script,$(BUILD)/trace/map,-z,defs,-z,relro,-z,now \
		$(TRACE_PARTS:%=$(BUILD)/trace/%.o) -Wl,--whole-archive $(BUILD)/trace/untraced.a -Wl,--no-whole-archive -o $@

# What the Debian package says of it.
build/libstrm.symbols: c/strm.h c/strm_mt.h tools/c_symbols
	@mkdir -p build
	@tools/c_symbols --debian $(SONAME) $(SONAME_MT) >build/libstrm.symbols

# The library for threads that wait, which is tested, not proved. Its functions are those of c/strm_mt.h.
$(BUILD)/strm_mt.o: c/strm_mt.c c/strm_mt.h c/strm.h
	@mkdir -p $(BUILD)
	$(CC) -std=c11 -O2 -fPIC -Wall -Wextra -pedantic -Ic -c c/strm_mt.c -o $@

$(BUILD)/libstrm_mt.a: $(BUILD)/strm_mt.o
	rm -f $@
	$(AR) rcD $@ $<

$(BUILD)/libstrm_mt.so: $(BUILD)/strm_mt.o $(SHARED)
	$(CC) -shared -Wl,-soname,$(SONAME_MT),-z,defs,-z,relro,-z,now $^ -pthread -o $@

# The library that tests STREAMS modules as they are, which is tested, not proved (docs/MODULES.md).
$(BUILD)/libstrm_ddi.a: $(wildcard ddi/src/* ddi/include/sys/*) ddi/strm_ddi.h c/strm.h
	@mkdir -p $(BUILD)/ddi
	for part in $(notdir $(wildcard ddi/src/*.c)); do $(CC) -std=gnu11 -O2 -fPIC -Wall -Wextra -Iddi/include -Ic -c ddi/src/$$part -o $(BUILD)/ddi/$$part.o || exit; done
	rm -f $@
	$(AR) rcD $@ $(BUILD)/ddi/*.o

# Fills in a form of a file that says where the library is, as strm.pc.
FORM = sed 's:@PREFIX@:$(PC_PREFIX):; s/@VERSION@/$(VERSION)/'

build/strm.pc: c/strm.pc.in VERSION FORCE
	@mkdir -p build
	@$(FORM) c/strm.pc.in >build/strm.pc

.PHONY: FORCE
FORCE:

# Where the library is installed.
LIB := $(DESTDIR)$(PREFIX)/lib

# Installs the libraries for C, and what C++, Rust and Python need. These are headers, manuals, a crate and a wheel. With them is what pkg-config,
# CMake, gdb and strm-trace take. Then it prints the lines that let pkg-config and the loader find them, unless they are to be moved from DESTDIR.
install-lib: $(ARCHIVE) $(SHARED) $(ARCHIVE_MT) $(SHARED_MT) $(ARCHIVE_DDI) $(TRACE)
	install -D -m 644 $(ARCHIVE) $(LIB)/libstrm.a
	install -m 644 $(SHARED) $(LIB)/libstrm.so.$(VERSION)
	ln -sf libstrm.so.$(VERSION) $(LIB)/$(SONAME)
	ln -sf $(SONAME) $(LIB)/libstrm.so
	install -m 644 $(ARCHIVE_MT) $(LIB)/libstrm_mt.a
	install -m 644 $(SHARED_MT) $(LIB)/libstrm_mt.so.$(VERSION)
	ln -sf libstrm_mt.so.$(VERSION) $(LIB)/$(SONAME_MT)
	ln -sf $(SONAME_MT) $(LIB)/libstrm_mt.so
	install -m 644 $(ARCHIVE_DDI) $(LIB)/libstrm_ddi.a
	install -D -m 644 -t $(DESTDIR)$(PREFIX)/include/strm/ddi ddi/strm_ddi.h
	install -D -m 644 -t $(DESTDIR)$(PREFIX)/include/strm/ddi/sys ddi/include/sys/*.h
	$(FORM) c/strm.pc.in | install -D -m 644 /dev/stdin $(LIB)/pkgconfig/strm.pc
	install -D -m 644 c/strm-config.cmake $(LIB)/cmake/strm/strm-config.cmake
	$(FORM) c/strm-config-version.cmake.in | install -m 644 /dev/stdin $(LIB)/cmake/strm/strm-config-version.cmake
	install -m 644 $(TRACE) $(LIB)/libstrm_trace.so
	install -m 644 c/strm_gdb.py $(LIB)/libstrm.so.$(VERSION)-gdb.py
	install -D -m 644 -t $(DESTDIR)$(PREFIX)/include c/strm.h c/strm_mt.h c/strm_trace.h bindings/cpp/strm.hpp bindings/cpp/strm_channel.hpp
	rm -rf $(SHARE)/strm/bindings
	for file in Cargo.toml build.rs src/channel.rs src/lib.rs src/raw.rs; do install -D -m 644 bindings/rust/$$file $(SHARE)/strm/bindings/rust/$$file || exit; done
	@python3 bindings/python/make_wheel.py $(SHARE)/strm/bindings $(SHARED)
	tools/man_pages 3 $(SHARE)/man/man3
	$(if $(filter install,$(MAKECMDGOALS)),,$(FINDS))

# Builds archives and Debian packages of a release in DIST. There is one of each for each target. Beside them is PROOF, with their sums. GATE names
# a log of the gate, whose last line goes into PROOF. It refuses uncommitted changes unless DIRTY is yes, and then PROOF says that there are some.
dist:
	$(NEEDS_RT)
	@GATE="$(GATE)" DIRTY="$(DIRTY)" tools/dist "$(DIST)"

# Puts strm and the libraries for C into release, with PROOF. GATE and DIRTY are those of dist.
release: $(STRM) $(ARCHIVE) $(SHARED)
	@$(MAKE) -s lib TARGET=$(ARM)
	@GATE="$(GATE)" DIRTY="$(DIRTY)" tools/dist --release

# Copies CRATE and those that it uses into the repository at TO. It needs no `rt`. If it refuses, it writes nothing.
vendor:
	@$(if $(TO),,$(error make vendor TO=DIR wants the top of a repository))tools/vendor $(CRATE) $(TO)

# Only a proved library is built. `rt lib` has one place for all targets, where what it built for x86-64 stays.
$(PROVED): $(SOURCES)
	$(NEEDS_RT)
ifeq ($(TARGET),)
	@tools/prove strm_c build/proving_library.log rt lib
else
	@mkdir -p $(BUILD)
	@at=crates/strm_c/out/libstrm_c.a; { [ ! -f $$at ] || mv $$at $(BUILD)/kept.a; } && \
		tools/prove strm_c build/proving_library.log rt lib --target $(TARGET) && mv $$at $@; status=$$?; \
		{ [ ! -f $(BUILD)/kept.a ] || mv $(BUILD)/kept.a $$at; } && exit $$status
endif

# Only a proved program is built. `rt run` keeps its work, and runs the program once.
$(BUILT): $(SOURCES)
	$(NEEDS_RT)
	@tools/prove strm_driver $(LOG) rt run -- --help
	@touch $(BUILT)

# This program is proved after strm, with which it shares libraries.
$(ROUNDS): $(BUILT) $(SOURCES)
	$(NEEDS_RT)
	@cd crates/strm_bench && rt run </dev/null >$(CURDIR)/build/proving_rounds.log 2>&1 || { echo "not proved, for the reason in build/proving_rounds.log" >&2; exit 1; }
	@touch $(ROUNDS)
