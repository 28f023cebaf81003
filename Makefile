# `make help` lists the targets.
PREFIX ?= /usr/local
DESTDIR ?=
BUILD ?= build
VERSION := $(shell sed -n 's/^\#\# \([0-9][0-9.]*\).*/\1/p' CHANGELOG.md 2>/dev/null | head -n 1)
DEB_VERSION := $(or $(VERSION),0.1)
ROOT := $(DESTDIR)$(PREFIX)
JOBS ?= $(shell nproc)

.PHONY: help quick proved programs manual install test gate deb playground lib clean

help:
	@echo 'make quick                 builds build/grass, build/lens without a proof, in minutes (build/UNPROVED says so)'
	@echo 'make proved                builds the same with all proofs: more than an hour the first time'
	@echo 'make install PREFIX=/usr   installs programs, manual pages, bash completion, editor files (DESTDIR works, too)'
	@echo 'make test                  tests pages, examples and damaged inputs, without proofs, in ten minutes'
	@echo 'make gate                  runs the gate, .ci/run: all proofs and all tests'
	@echo 'make deb                   makes a Debian package of the proved programs, in build/'
	@echo 'make playground            makes the verifier as one page, build/playground.html, from the proved library'
	@echo 'make lib                   makes the proved library for C and Python, in build/lib'
	@echo 'make clean                 removes build/ and the answers in examples/out/'

quick:
	@tools/build-quick $(BUILD)

# `rt run` proves a program, builds it and runs it once: here `grass` on crates/grass/data/nop.txt, and `lens help`.
proved:
	cd crates/grass && rt run -- check data/nop.txt
	cd crates/lens && rt run -- help
	mkdir -p $(BUILD)
	rm -f $(BUILD)/UNPROVED
	cp crates/grass/out/grass crates/lens/out/lens $(BUILD)/
	echo "sources $$(tools/source-checksum)" > $(BUILD)/PROVED

# The programs that are in build/, proved or not; if there are none, those of `quick`.
programs:
	@test -x $(BUILD)/grass -a -x $(BUILD)/lens || $(MAKE) quick

manual: programs
	@tools/man-pages $(BUILD)/manual $(BUILD)/lens

install: manual
	install -d $(ROOT)/bin $(ROOT)/share/man/man1 $(ROOT)/share/bash-completion/completions
	install -d $(ROOT)/share/vim/vimfiles/syntax $(ROOT)/share/grass
	install -m 755 $(BUILD)/grass $(BUILD)/lens $(ROOT)/bin/
	install -m 644 $(BUILD)/manual/grass.1 $(BUILD)/manual/lens.1 $(ROOT)/share/man/man1/
	install -m 644 $(BUILD)/manual/grass.bash $(ROOT)/share/bash-completion/completions/grass
	install -m 644 $(BUILD)/manual/lens.bash $(ROOT)/share/bash-completion/completions/lens
	install -m 644 tools/grass.vim $(ROOT)/share/vim/vimfiles/syntax/grass.vim
	install -m 644 tools/grass.tmLanguage.json $(ROOT)/share/grass/
	@test ! -e $(BUILD)/UNPROVED || echo 'note: the programs that were installed are not proved'

test: quick
	tools/check-docs $(BUILD)/grass $(BUILD)/lens
	$(MAKE) -s -C examples -j $(JOBS) GRASS=$(abspath $(BUILD)/grass)
	tools/damage 1000 1 $(BUILD)/grass

gate:
	.ci/run

deb: proved
	$(MAKE) manual
	tools/make-deb $(BUILD) $(DEB_VERSION)

playground:
	cd crates/gh_page && rt lib
	tools/try-heap
	tools/build-playground $(BUILD)/playground.html

lib:
	tools/build-lib $(BUILD)/lib

clean:
	rm -rf $(BUILD)
	$(MAKE) -s -C examples clean
