# The targets for people and for the gate. `rt` is the command of the Rattle toolchain.
export RT ?= rt
PROGRAMS := mdrender mdpreview
LIBRARY := bin/libjirmoans.a
# Set where bin/ has the programs of these sources, as behind the gate; then a comparison builds none.
BUILT ?=
# What `make run` shows: a text, and a script of edits.
PAGE ?= examples/page.md
EDITS ?= examples/writer.script
# How many random texts and edit scripts a comparison with an oracle takes.
TEXTS ?= 2000
SCRIPTS ?= 600
# How long a run with random edits or random bytes is, and what its chance begins with.
SECONDS ?= 60
SEED ?= 1
# The part whose rows are made of the standards' examples.
PART ?= blocks

# Where `make install` puts things; DESTDIR goes before each of these folders.
PREFIX ?= /usr/local
BIN_DIR ?= $(PREFIX)/bin
LIB_DIR ?= $(PREFIX)/lib
INCLUDE_DIR ?= $(PREFIX)/include
PKG_CONFIG_DIR ?= $(LIB_DIR)/pkgconfig
MAN_DIR ?= $(PREFIX)/share/man/man1
DATA_DIR ?= $(PREFIX)/share/jirmoans
BASH_COMPLETION_DIR ?= $(PREFIX)/share/bash-completion/completions
ZSH_COMPLETION_DIR ?= $(PREFIX)/share/zsh/site-functions
INSTALL ?= install
# The version stands in one place, which --version prints too.
VERSION = $(shell sed -nE 's/^pub const VERSION: &str = "(.*)";$$/\1/p' crates/mdwords/src/commands.rt)

# Ends a target that takes what is in bin/ where that is not there.
need = @for made in $(1); do [ -e $$made ] || { echo "$$made is not there: make build first" >&2; exit 1; }; done
# Ends a target that takes the toolchain where that is not there.
need_rt = @command -v $(RT) > /dev/null || { echo "there is no $(RT) on the path: it is the command of the Rattle toolchain (rattle-kit-13f)" >&2; exit 1; }
# Ends a target that takes a folder which no variable names.
need_folder = @$(foreach name,$(1),[ -d "$($(name))" ] || { echo "make $@ takes $(name)=DIR, and that is no folder" >&2; exit 1; };)
BUILT_PROGRAMS := $(PROGRAMS:%=bin/%)

.PHONY: help run test build programs check more_edits fmt picture bench hostile soak fuzz memory pane_test vim_test c_library c_memory compare counts rows rows_inlines standards install install-programs uninstall

help:
	@echo "make run                 runs mdrender on a page and mdpreview on a writer's few edits, and shows what goes in and out (from the sources, unproved, where bin/ is empty); PAGE=FILE and EDITS=FILE show files of yours"
	@echo "make build               proves the programs, the library for C and all that they stand on, and builds them into bin/, side by side; a line a crate, the logs in out/NAME.log"
	@echo "make programs            proves and builds the two programs alone"
	@echo "make test                the gate: every proof from nothing, all tests, examples and listings of the pages, and wrong code that must be refused; before these what can be seen in a minute of layout, sources, edits and pages, and where that fails no more; then endings and completions, the library from C, the client in Vim; the log in out/gate.log"
	@echo "make check               a quick check of every crate, over what earlier checks kept"
	@echo "make more_edits NAMES=\"mdtext mdview\"  tries the must-fail edits that the gate leaves out, of these crates or of all (a minute each)"
	@echo "make fmt                 lays out the sources"
	@echo "make picture             draws docs/preview.svg, the README's picture, from a run of bin/mdpreview"
	@echo "make install PREFIX=DIR  installs what bin/ has of the programs, with their man pages, completions for bash and zsh and HTML's file of entities (share/jirmoans), and of the library with its header, below DIR ($(PREFIX)), and names what it has not; DESTDIR is honoured"
	@echo "make install-programs    installs what bin/ has of the programs, with what belongs to them, and leaves the library out"
	@echo "make uninstall           removes what make install put there"
	@echo "make bench               measures bin/mdrender beside cmark-gfm and md4c: instructions, times and memory on 22 kinds of texts, of which docs/PERF.md has a run"
	@echo "make pane_test           looks at clients/pane in a headless Chromium, and compares the page with mdrender's HTML after each change of a file"
	@echo "make vim_test            edits a buffer in Vim with clients/vim, and compares the HTML beside it with mdrender's after each change"
	@echo "make c_library           compiles clients/c and tools/c_calls.c against the library, and runs them beside mdpreview; makes bin/libjirmoans.so, and tries clients/python"
	@echo "make c_memory            the same C programs under valgrind: no error and no leak"
	@echo "make hostile             counts the instructions of bin/mdrender on hostile texts at two sizes (valgrind), and says where twice the text takes much more than twice as many; then times large ones"
	@echo "make soak SECONDS=N      random edits of the repository's own texts through bin/mdpreview, for N seconds ($(SECONDS)): the pieces that a client keeps, html and mdrender's HTML must agree (SEED=$(SEED))"
	@echo "make fuzz SECONDS=N      random bytes through both programs under a limit on memory, for N seconds ($(SECONDS)): no crash, and no status but 0, 1 and 2 (SEED=$(SEED))"
	@echo "make memory              refuses each growth of memory in turn: of each call of the libraries, and of both programs over the examples and random scripts of edits (SEED=$(SEED); a C compiler is needed)"
	@echo "make standards CORPUS=DIR  runs bin/mdrender on the examples of the standards in CORPUS (*.json, as CommonMark's spec.json is), byte for byte"
	@echo "make rows ORACLE=DIR CORPUS=DIR  proves rows of the definitions of PART=$(PART) from the standards' examples in CORPUS, with what ORACLE/oracle.py says of them"
	@echo "make compare ORACLE=DIR  builds, and runs DIR/compare on the programs, with TEXTS=$(TEXTS) random texts and SCRIPTS=$(SCRIPTS) random edit scripts"
	@echo "make counts ORACLE=DIR   compares what each edit of SCRIPTS=$(SCRIPTS) random edit scripts reads with what DIR/oracle.py allows"
	@echo "make rows_inlines ORACLE=DIR CORPUS=DIR   computes the definition of inlines at the examples of CORPUS, as DIR/oracle.py reads them"

run:
	@tools/show "$(PAGE)" "$(EDITS)"

build:
	@tools/build $(PROGRAMS) jirmoans

programs:
	@tools/build $(PROGRAMS)

test:
	@tools/gate

check:
	$(need_rt)
	@$(RT) all check

more_edits:
	@tools/more_edits $(NAMES)

fmt:
	$(need_rt)
	@for crate in crates/*/; do (cd $$crate && $(RT) fmt) || exit 1; done

picture:
	$(call need,bin/mdpreview)
	@tools/picture examples/pane.script > bin/.preview.svg && mv bin/.preview.svg docs/preview.svg

bench:
	$(call need,bin/mdrender)
	@tools/bench.py

hostile:
	$(call need,$(BUILT_PROGRAMS))
	@tools/hostile.py bin

soak:
	$(call need,$(BUILT_PROGRAMS))
	@tools/soak.py --seconds $(SECONDS) --seed $(SEED)

fuzz:
	$(call need,$(BUILT_PROGRAMS))
	@tools/fuzz.py --seconds $(SECONDS) --seed $(SEED)

memory:
	@$(if $(BUILT),,tools/build $(PROGRAMS) refused_growths)
	@tools/memory.py --seed $(SEED)

pane_test:
	$(call need,$(BUILT_PROGRAMS))
	@tools/pane_test.py

vim_test:
	$(call need,$(BUILT_PROGRAMS))
	@tools/vim_test.py

c_library:
	$(call need,bin/mdpreview $(LIBRARY))
	@tools/c_library

c_memory:
	$(call need,bin/mdpreview $(LIBRARY))
	@tools/c_library --memory

standards:
	$(call need,bin/mdrender)
	$(call need_folder,CORPUS)
	@tools/standards $(wildcard $(CORPUS)/commonmark-*.json $(CORPUS)/gfm-*.json $(CORPUS)/spec.json)

compare:
	$(call need_folder,ORACLE)
	@$(if $(BUILT),,tools/build $(PROGRAMS))
	@tools/compare $(ORACLE) $(TEXTS) $(SCRIPTS)

counts:
	$(call need_folder,ORACLE)
	@$(if $(BUILT),,tools/build edit_counts)
	@tools/counts $(ORACLE) $(SCRIPTS)

# With the library alone built, that no program is there is no failure of the whole.
install: NO_PROGRAM = $(if $(wildcard $(LIBRARY)),0,1)
install: install-programs
	@if [ -e $(LIBRARY) ]; then \
	  $(INSTALL) -d "$(DESTDIR)$(LIB_DIR)" "$(DESTDIR)$(INCLUDE_DIR)" "$(DESTDIR)$(PKG_CONFIG_DIR)" && \
	  $(INSTALL) -m 644 $(LIBRARY) "$(DESTDIR)$(LIB_DIR)" && \
	  $(INSTALL) -m 644 include/jirmoans.h "$(DESTDIR)$(INCLUDE_DIR)" && \
	  sed -e 's|@PREFIX@|$(PREFIX)|; s|@LIB_DIR@|$(LIB_DIR)|; s|@INCLUDE_DIR@|$(INCLUDE_DIR)|; s|@VERSION@|$(VERSION)|' include/jirmoans.pc.in > "$(DESTDIR)$(PKG_CONFIG_DIR)/jirmoans.pc" && \
	  chmod 644 "$(DESTDIR)$(PKG_CONFIG_DIR)/jirmoans.pc"; \
	else \
	  echo "$(LIBRARY) is not built, and so not installed (make build)"; \
	fi

# A program that is not built is named and left out; where none is, nothing is installed.
install-programs:
	@there=; for program in $(PROGRAMS); do \
	  if [ -e bin/$$program ]; then there="$$there $$program"; else echo "bin/$$program is not built, and so not installed (make programs)"; fi; \
	done; \
	[ -n "$$there" ] || exit $(or $(NO_PROGRAM),1); \
	$(INSTALL) -d "$(DESTDIR)$(BIN_DIR)" "$(DESTDIR)$(MAN_DIR)" "$(DESTDIR)$(DATA_DIR)" "$(DESTDIR)$(BASH_COMPLETION_DIR)" "$(DESTDIR)$(ZSH_COMPLETION_DIR)" && \
	$(INSTALL) -m 644 bench/entities.json "$(DESTDIR)$(DATA_DIR)" && \
	for program in $$there; do \
	  $(INSTALL) -m 755 bin/$$program "$(DESTDIR)$(BIN_DIR)" && \
	  $(INSTALL) -m 644 docs/man/$$program.1 "$(DESTDIR)$(MAN_DIR)" && \
	  $(INSTALL) -m 644 completions/mdrender.bash "$(DESTDIR)$(BASH_COMPLETION_DIR)/$$program" || exit 1; \
	done && \
	$(INSTALL) -m 644 completions/_mdrender "$(DESTDIR)$(ZSH_COMPLETION_DIR)"

uninstall:
	@for program in $(PROGRAMS); do \
	  rm -f "$(DESTDIR)$(BIN_DIR)/$$program" "$(DESTDIR)$(MAN_DIR)/$$program.1" "$(DESTDIR)$(BASH_COMPLETION_DIR)/$$program" || exit 1; \
	done
	rm -f "$(DESTDIR)$(ZSH_COMPLETION_DIR)/_mdrender" "$(DESTDIR)$(DATA_DIR)/entities.json"
	[ ! -d "$(DESTDIR)$(DATA_DIR)" ] || rmdir --ignore-fail-on-non-empty "$(DESTDIR)$(DATA_DIR)"
	rm -f "$(DESTDIR)$(LIB_DIR)/libjirmoans.a" "$(DESTDIR)$(INCLUDE_DIR)/jirmoans.h" "$(DESTDIR)$(PKG_CONFIG_DIR)/jirmoans.pc"

rows:
	$(call need_folder,ORACLE CORPUS)
	@tools/rows $(PART) $(ORACLE) $(CORPUS)

rows_inlines:
	$(call need_folder,ORACLE CORPUS)
	@tools/rows_inlines $(ORACLE) $(CORPUS)
