# `make` shows the first example's answer, proves and builds the program, and leaves it as bin/kuifje. docs/BUILDING.md says what each
# command does and how long it takes.
.PHONY: first try lib page slides install uninstall dist test audit hostile bench confirm

PREFIX ?= /usr/local
LIBDIR ?= $(PREFIX)/lib
ZSHDIR ?= share/zsh/site-functions
FILE ?= examples/first.kf
COMMAND ?= hyper

first:
	@.ci/build

# Runs an example, or any other file, before anything is proved.
try:
	@cd crates/kuifje && rt try --data "$(notdir $(FILE))=$(abspath $(FILE))" -- $(COMMAND) "$(notdir $(FILE))"

# What the program and the library are built from.
SOURCES := crates.txt VERSION HANDLES .ci/compile $(shell find crates -name out -prune -o -type f \( -name '*.rt' -o -name '*.antt' \) -print)

# The library for C, in lib/: docs/LIBRARY.md.
lib: lib/libkuifje.so.0

# The page, in dist/page: the proved library as WebAssembly, with editors and pictures. docs/PAGE.md.
page: web/out/kuifje64.wasm
	@web/build

web/out/kuifje64.wasm: lib/libkuifje.so.0 $(wildcard web/module/*)
	@web/module/build

# Slides for a lecture of 90 minutes, in dist/slides.html, made of the course: a browser shows them, and prints them to PDF. The program is asked as
# they are built. LESSONS=2,8 takes other lessons.
slides: bin/kuifje
	@/usr/bin/python3 tools/gate/slides.py $(if $(LESSONS),--lessons $(LESSONS)) dist/slides.html && echo dist/slides.html

# The program and the library, the manual page, and what shells and editors know of the program: share/README.md says where each file goes.
# Built is what isn't there or is older than its sources. `make uninstall`, with the same words, removes just these files again.
install: bin/kuifje lib/libkuifje.so.0
	@DESTDIR="$(DESTDIR)" PREFIX="$(PREFIX)" LIBDIR="$(LIBDIR)" ZSHDIR="$(ZSHDIR)" share/install

uninstall:
	@DESTDIR="$(DESTDIR)" PREFIX="$(PREFIX)" LIBDIR="$(LIBDIR)" ZSHDIR="$(ZSHDIR)" share/install --remove

bin/kuifje: $(SOURCES)
	@.ci/build

lib/libkuifje.so.0: $(SOURCES) .ci/link share/c/kuifje.map
	@.ci/build-library

# A tar archive and Debian packages of what is built, in dist/, with their SHA-256 sums: of the build that docs/PROVED.md records.
dist: bin/kuifje lib/libkuifje.so.0
	@.ci/dist

# The gate: proves and tries what changed since it last passed on this machine, and runs every test and the program.
test:
	.ci/run

# Throws bad texts, bad files and little memory at the built program, and says what it saw.
hostile: bin/kuifje lib/libkuifje.so.0
	tools/run hostile.run
	tools/run hostile.library

# Seconds and megabytes of the built program on programs that grow.
bench: bin/kuifje
	tools/run bench.run

# Has Coq's proofs confirm verdicts and hypers of the built program, of every program of the examples, the course and the cases, and compares
# the checker that is extracted from them with `kuifje check`. Where Coq isn't there it says that it skips. audit/coq/README.md says what is
# confirmed.
confirm: bin/kuifje
	@.ci/coq bin/kuifje
	@if command -v coqc >/dev/null; then \
		$(MAKE) -s -C audit/coq check && tools/run coq.agreement bin/kuifje && tools/run coq.speed && \
		tools/run coq.programs bin/kuifje --all; fi

# The same with nothing kept: all is proved anew, and each wrong body tried anew. A kit whose `rt ci` keeps what passed has --anew for that;
# one without it keeps nothing.
audit:
	.ci/proofs $$(rt help 2>&1 | grep -o -m 1 -e --anew)
