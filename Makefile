# The schemas that `make try` judges.
WRITER ?= examples/int.avsc
READER ?= examples/long.avsc

# The container that `make files` checks, shows and copies, and a reader's schema for its data.
FILE ?= examples/orders.avro
FILE_READER ?= examples/order-2.avsc

# The crate that `make check` checks.
CRATE ?= avro_name

# Where `make install` puts the program, its man page and its completions, and all else.
PREFIX ?= /usr/local
DESTDIR ?=

# JNA, with which the library in Java is built and installed, where it is there.
JNA ?= /usr/share/java/jna.jar

VERSION := 1.0.0
PROGRAM := crates/avro/out/avro
LIBRARY := bindings/out/libavrojudge.so
JAR := bindings/out/avrojudge.jar
ARCHIVE := packaging/out/avro-$(VERSION)-x86_64-linux.tar.gz

# The files of a pattern that git keeps, so that what else lies about is not packed; all of them where there is no git.
kept = $(sort $(or $(shell git ls-files -- $(1) 2>/dev/null), $(wildcard $(1))))

# What lies below share/avro under the paths that it has here.
PAGES := README.md CHANGELOG.md $(sort $(call kept, docs/*) docs/DEFINITIONS.md)
SCRIPTS := $(filter-out $(wildcard examples/*/try* examples/*/*_files.py examples/*/*_cases.py examples/*/look.py), \
	$(call kept, examples/*.* examples/*/*))
BINDINGS := $(call kept, bindings/c/example.c bindings/python/*.* bindings/java/pom.xml bindings/java/src/main/java/org/avrojudge/*)

# When the commit was made: the time of all that is packed.
EPOCH = $(or $(SOURCE_DATE_EPOCH), $(shell git log -1 --format=%ct))
TESTS := avro_data_tests avro_answer_tests

.DEFAULT_GOAL := help
.PHONY: help try files program library jar install install-scripts install-library dist quick test check fmt bench robust pages surface words clean

help: ## lists the targets
	@awk -F ':.*## ' '/^[a-z]+:.*## / { printf "make %-8s %s\n", $$1, $$2 }' $(MAKEFILE_LIST)

# A no and an undecided, with status 1 or 2, are answers; rt ends with these statuses when the build fails, too.
ifdef PAIRS
try:
	@cases=$$(mktemp -d) && trap 'rm -rf "$$cases"' EXIT && set -- && for pair in $(abspath $(PAIRS))/*/; do \
	name=$$(basename "$$pair") && cp "$$pair/writer.avsc" "$$cases/$$name" && set -- "$$@" --data "$$name.reader=$$pair/reader.avsc" && \
	printf '%s\n' judge {} "$$name.reader" > "$$cases/$$name.args" || exit 1; done && \
	cd crates/avro && rt try --cases "$$cases" "$$@"
else
try: ## builds the program without any proof, and judges WRITER against READER, or writer.avsc against reader.avsc in each folder of PAIRS (three minutes of processor time)
	@said=$$(cd crates/avro && rt try --data writer.avsc=$(abspath $(WRITER)) --data reader.avsc=$(abspath $(READER)) \
		-- judge writer.avsc reader.avsc); status=$$?; \
	case $$said in yes | no* | undecided*) printf '%s\n' "$$said"; answered=0 ;; *) answered=1 ;; esac; \
	test $$status = 0 || echo "avro judge: exit status $$status" >&2; exit $$answered
endif

files: ## builds the program without any proof, and checks, shows and copies FILE (the same time)
	@cases=$$(mktemp -d) && trap 'rm -rf "$$cases"' EXIT && \
	for command in check show copy; do cp $(FILE) "$$cases/$$command"; done && \
	printf '%s\n' check {} > "$$cases/check.args" && \
	printf '%s\n' show {} --reader reader.avsc > "$$cases/show.args" && \
	printf '%s\n' copy {} copy.avro --reader reader.avsc > "$$cases/copy.args" && \
	cd crates/avro && rt try --cases "$$cases" --data reader.avsc=$(abspath $(FILE_READER))

program: ## proves and builds the program and the crates below it, and says where and which it is (two processor hours)
	@cd crates/avro && rt run -- schema $(abspath examples/int.avsc)
	@cd $(dir $(PROGRAM)) && sha256sum avro | tee avro.sha256
	@echo "the program is $(abspath $(PROGRAM))"

library: ## proves and builds bindings/out/libavrojudge.a and libavrojudge.so, for C, Python and Java (an hour and more)
	@cd crates/avro_c && rt lib
	@bindings/link.sh crates/avro_c/out/libavro_c.a bindings/out
	@echo "the libraries are $(abspath bindings/out/libavrojudge.a) and $(abspath $(LIBRARY))"

$(LIBRARY):
	@echo "run 'make library' first: it proves and builds $(LIBRARY)" >&2; false

$(PROGRAM):
	@echo "run 'make program' first: it proves and builds $(PROGRAM)" >&2; false

jar: $(JAR) ## builds bindings/out/avrojudge.jar, for Java, with JNA=/usr/share/java/jna.jar (a second)

$(JAR): bindings/java/build.sh $(filter %.java, $(BINDINGS))
	bindings/java/build.sh $(JNA) $(EPOCH) $(JAR)

# Installs files below share/avro.
put = for file in $(1); do mode=644; test ! -x $$file || mode=755; \
	install -D -m $$mode $$file $(DESTDIR)$(PREFIX)/share/avro/$$file || exit 1; done

install: $(PROGRAM) install-scripts ## installs the proved program with pages and scripts, and the library if there is one (a second)
	install -D -m 755 $(PROGRAM) $(DESTDIR)$(PREFIX)/bin/avro
	install -D -m 644 man/avro.1 $(DESTDIR)$(PREFIX)/share/man/man1/avro.1
	install -D -m 644 completions/avro.bash $(DESTDIR)$(PREFIX)/share/bash-completion/completions/avro
	install -D -m 644 completions/avro.zsh $(DESTDIR)$(PREFIX)/share/zsh/site-functions/_avro
	install -D -m 644 completions/avro.fish $(DESTDIR)$(PREFIX)/share/fish/vendor_completions.d/avro.fish
	@! test -e $(LIBRARY) || $(MAKE) --no-print-directory install-library

install-scripts:
	@checks/pages.py --definitions
	@$(call put, $(PAGES) $(SCRIPTS))

install-library: $(LIBRARY) $(if $(wildcard $(JNA)), $(JAR))
	install -D -m 755 $(LIBRARY) $(DESTDIR)$(PREFIX)/lib/libavrojudge.so.$(VERSION)
	ln -sf libavrojudge.so.$(VERSION) $(DESTDIR)$(PREFIX)/lib/libavrojudge.so.1
	ln -sf libavrojudge.so.1 $(DESTDIR)$(PREFIX)/lib/libavrojudge.so
	install -D -m 644 $(LIBRARY:.so=.a) $(DESTDIR)$(PREFIX)/lib/libavrojudge.a
	install -D -m 644 bindings/c/avrojudge.h $(DESTDIR)$(PREFIX)/include/avrojudge.h
	install -D -m 644 bindings/c/avrojudge.pc $(DESTDIR)$(PREFIX)/lib/pkgconfig/avrojudge.pc
	@$(call put, $(BINDINGS))
	$(if $(wildcard $(JNA)), install -D -m 644 $(JAR) $(DESTDIR)$(PREFIX)/share/avro/bindings/java/avrojudge.jar)

dist: $(PROGRAM) $(LIBRARY) $(JAR) ## packs all that is installed into one archive, the same bytes for the same commit (seconds)
	@cd $(dir $(PROGRAM)) && sha256sum --check --quiet avro.sha256
	packaging/dist.sh $(ARCHIVE) $(EPOCH) PROGRAM=$(PROGRAM) LIBRARY=$(LIBRARY) JAR=$(JAR)

quick: words ## runs all tests without any proof (thirteen minutes of processor time)
	@for crate in $(TESTS); do echo "== $$crate"; (cd crates/$$crate && rt try --test) || exit 1; done
	@echo "== avro_runs"; cd crates/avro_runs && \
	rt try --steps 1 --seconds 600 $$(sed 's/.*/--data &=data\/&/' args) -- $$(cat args) | diff - stdout

test: surface ## the gate: each proof, test, program and must-fail edit, from scratch (three processor hours)
	rt ci

check: ## checks one crate, CRATE=avro_name (1 to 3 minutes per thousand lines; after an edit 5 to 60 seconds)
	cd crates/$(CRATE) && rt check

fmt: ## formats the sources of every crate (ten seconds)
	@for crate in crates/*/; do (cd $$crate && rt fmt) || exit 1; done

bench: $(PROGRAM) ## measures the proved program, in one table (each run up to a minute of processor time)
	bench/all.sh $(PROGRAM)

robust: $(PROGRAM) $(LIBRARY) ## runs checks/ on the proved program, and compares it with another, OLD=PROGRAM (some minutes)
	checks/refusals.py $(PROGRAM)
	checks/room.py $(PROGRAM)
	checks/one_file.py $(PROGRAM)
	checks/descriptors.py $(PROGRAM)
	checks/stack.py $(PROGRAM)
	checks/words.py $(PROGRAM)
	checks/confirm.py $(PROGRAM)
	checks/explain.py $(PROGRAM)
	checks/why.py $(PROGRAM)
	checks/tamed.py $(PROGRAM)
	checks/migration.py $(PROGRAM)
	checks/bindings.py $(PROGRAM) $(LIBRARY)
	$(if $(OLD),checks/compare.py $(OLD) $(PROGRAM))

pages: ## prints docs/CONTRACTS.md, and docs/DEFINITIONS.md, which git does not keep, from the comments of the sources (seconds)
	checks/pages.py

surface: ## tests the public items and their libraries against checks/surface.py, and docs/CONTRACTS.md (three seconds)
	checks/surface.py
	checks/pages.py --check

words: surface ## tests these, the edits that they have to find, the words and codes of the man page and completions, and the tables of the headline, and weighs the sources (ten seconds)
	checks/try_surface.py
	checks/words.py
	checks/headline.py
	checks/weight.py
	examples/ci/breaking/build.py --check

clean: ## removes what checks and builds have left (seconds)
	rm -rf crates/*/out bindings/out packaging/out
	rm -rf bench/__pycache__ bench/*/__pycache__ bindings/python/__pycache__ checks/__pycache__
	rm -rf examples/__pycache__ examples/*/__pycache__ examples/*/*/__pycache__ examples/*/*/*/__pycache__
