# make            the commands and the C library, proved and built (15 to 25 minutes at first), in out/prefix
# make demo       the main job on two examples, unproved, in two minutes; make demo-proved proves it first
# make check      all proofs, mutations and tests (over an hour on 4 processors); make check-quick what needs seconds and no proof;
#                 make mutations tries the mutations that have changed; make check-tests the tests of what is built
# make install    what is built, into PREFIX (and DESTDIR), with libraries in LIBDIR; make uninstall removes it
# make tools      what the tests need from Debian, as root. CI is `CI=true make tools check` (.ci/run): a test that is skipped for want of
#                 a tool then fails if apt has the tool
# make dist       the files of a release, in out/release: packaging/README.release says what they are
SHELL = /bin/bash
MAKEFLAGS += --no-print-directory
.SHELLFLAGS = -o pipefail -c
PREFIX ?= /usr/local
LIBDIR ?= lib
PYTHON = $(shell tests/python_with pytest xdist markdown_it elftools hypothesis || tests/python_with pytest xdist markdown_it || echo python3)
PYTEST = $(PYTHON) -m pytest -n $(WORKERS) --dist loadgroup --durations=5
WORKERS ?= $(shell nproc)
# The crates of the commands, and what rt builds of them.
PROGRAMS = bpfcanon bpfcanon_object
COMMANDS = $(foreach it,$(PROGRAMS),crates/$(it)/out/$(it))
ARCHIVE = crates/bpfcanon_c/out/libbpfcanon_c.a
RELEASE_LOGS = out/aarch64.log $(PROGRAMS:%=out/%.log) $(PROGRAMS:%=out/%.aarch64.log)
# The crates whose mutations are tried together, each after those that it uses.
MUTATED = btf_raw bpf_elf bpf_insn btf_types bpf_canon bpf_text bpfcanon bpf_object bpfcanon_c bpfcanon_object
MUTATIONS = $(MUTATED:%=out/mutations.%.log)
LIBRARY = out/prefix/include/bpfcanon.h
PACKAGES = $(shell sed 's/^\#.*//; s/ .*//' tests/packages.txt)
export SOURCE_DATE_EPOCH ?= $(shell git log -1 --format=%ct)
export PYTHONDONTWRITEBYTECODE = 1
export RT_JOBS ?= $(WORKERS)
$(shell mkdir -p out)

.PHONY: all kit demo demo-proved check check-quick prove beside mutations release-objects tested check-tests check-c check-built record check-release
.PHONY: lint tools written install uninstall dist clean FORCE
all: $(COMMANDS) $(LIBRARY)

# --- what Rattle builds: it knows itself what is new
crates/bpfcanon/out/bpfcanon: FORCE
	cd crates/bpfcanon && rt run < /dev/null
crates/bpfcanon_object/out/bpfcanon_object: FORCE
	cd crates/bpfcanon_object && rt run -- --version
$(ARCHIVE): FORCE
	capi/archive --keep $(WAITS) 2>&1 | tee -a out/archive.log
FORCE:

# Without the kit, what proves or compiles ends here.
$(COMMANDS) demo demo-proved check prove mutations: | kit
kit:
	@command -v rt > out/found || { echo "Rattle's kit is missing: there is no rt on the path. Without it, docs/canon.py FILE writes the canonical file of an" \
	"object, testdata/ has vectors for other implementations, and make check-quick tests the pages and the sources"; exit 1; } >&2

# An object before and after a comment has one canonical file, and a program in either byte order the same canonical bytes.
demo demo-proved: RUN = rt $(if $(filter demo,$@),try,run) --
demo demo-proved: DATA = ../../testdata/packet_filter
demo demo-proved:
	@rm -rf out/demo && mkdir out/demo && printf '__attribute__((section("xdp"))) int pass(void *ctx)\n{\n\treturn 2;\n}\n' > out/demo/pass.c
	@cd out/demo && clang -target bpf -O2 -g -c pass.c -o before.o && sed -i 's|return 2;|return 2; // a note|' pass.c && \
	clang -target bpf -O2 -g -c pass.c -o after.o && ! cmp before.o after.o
	@cd crates/bpfcanon_object && $(RUN) key $(CURDIR)/out/demo/before.o $(CURDIR)/out/demo/after.o | tee ../../out/demo/keys && \
	test $$(cut -c 1-64 ../../out/demo/keys | sort -u | wc -l) = 1 && echo 'right: the object after a comment has the key of the one before'
	@cd crates/bpfcanon && $(RUN) insn-canon --order big < $(DATA).big.bin | cmp - $(DATA).little.bin && \
	echo 'right: the canonical bytes of the big-endian program are those of the little-endian one$(if $(filter demo,$@),. Nothing was proved)'

# The commands aren't a prerequisite: the sources of a release have the archive alone.
out/meson/build.ninja: | $(ARCHIVE)
	meson setup out/meson -Dtests=true
INSTALL = meson configure out/meson --prefix $(1) --libdir $(2) -Dcommand=$(if $(filter-out $(wildcard $(COMMANDS)),$(COMMANDS)),false,true) && meson install -C out/meson --quiet
$(LIBRARY): $(ARCHIVE) | out/meson/build.ninja
	export DESTDIR= && $(call INSTALL,$(CURDIR)/out/prefix,lib)

install: $(LIBRARY)
	$(call INSTALL,$(PREFIX),$(LIBDIR))
uninstall:
	ninja -C out/meson uninstall

# --- tests. The parts end with the first that fails; then the seconds of each, and what the runners counted
# rt ci refuses links, which meson makes.
BUILT = crates/*/out/rlib crates/bpfcanon_c/out/libbpfcanon_c*.a out/meson out/sanitized out/thread out/prefix
check: | $(filter tools,$(MAKECMDGOALS))
	@rm -rf out/*.log out/seconds out/proved out/kept $(BUILT)
	@status=0; for parts in check-quick "prove beside" record check-release; do \
	$(MAKE) -j 2 timed-$${parts// / timed-} || { status=$$?; break; }; done; cat out/seconds; \
	grep -shaE 'NOT REFUSED|BAD (EDIT|MUTATION)|NOT PROVED|tests FAILED|had not ended|^(rt: )?FAILED' out/rt_ci.log out/mutations.*.log; \
	grep -shaE '[0-9]+ (passed|failed|skipped)' out/quick.log out/rt_ci.log out/mutations.*.log out/tests.log out/release.log | sed 's/^=* //; s/ =*$$//' > out/summary; \
	cat out/summary; exit $$status
timed-%:
	@began=$$SECONDS; $(MAKE) $*; status=$$?; echo "$*: $$((SECONDS - began)) s" >> out/seconds; exit $$status

check-quick: lint
	$(PYTHON) -m pytest -q -m quick | tee out/quick.log

# A mutation that can't be applied shows nothing, and rt ci lets it pass. After its run rt ci puts the libraries of earlier checks back in
# place of those that it proved, which the archive is made over. Where earlier runs kept proofs few are left, and rt gives each of them several
# processors unless RT_JOBS says how many are tried side by side.
KEPT = $(wildcard $(dir $(shell rt doc))../rattle-kept/proof-*)
prove:
	rm -rf out/proved out/rt_ci.log out/PROVED.txt $(BUILT)
	for crate in $(PROGRAMS) bpfcanon_c; do capi/sources $$crate; done > out/sources
	$(if $(KEPT),env -u RT_JOBS) rt ci 2>&1 | tee out/rt_ci.log; status=$$?; touch out/proved; ! grep -qa 'BAD EDIT' out/rt_ci.log && exit $$status

# While rt ci runs: what needs its libraries or its programs waits for each of them. As many checks side by side as memory holds.
BESIDE = $(shell expr $(RT_JOBS) / 2 + 1)
beside:
	$(MAKE) -j $(BESIDE) --output-sync=target WAITS=--beside $(MUTATIONS) tested
mutations:
	$(MAKE) -j $(RT_JOBS) --output-sync=target $(MUTATIONS)
$(MUTATIONS): out/mutations.%.log: FORCE
	nice tools/mutations.py $(WAITS) $* 2>&1 | tee $@
# A check of a crate begins with what the one before kept.
$(PROGRAMS:%=out/mutations.%.log): out/mutations.%.log: out/%.aarch64.log
out/mutations.bpfcanon_c.log: out/aarch64.log

# What else a release needs, each with its verdict: the archive for ARM, and the objects of the programs for both processors.
release-objects: $(RELEASE_LOGS)
out/aarch64.log: $(ARCHIVE)
	nice capi/archive --keep $(WAITS) aarch64 2>&1 | tee $@
$(PROGRAMS:%=out/%.log): out/%.log: FORCE
	nice packaging/program.py $(WAITS) $* 2>&1 | tee $@
$(PROGRAMS:%=out/%.aarch64.log): out/%.aarch64.log: out/%.log
	nice packaging/program.py $(WAITS) $* aarch64 2>&1 | tee $@

tested: $(ARCHIVE)
	for it in $(PROGRAMS); do until grep -qaE "^rt: $$it (proved$$|is kept:)" out/rt_ci.log; do [ ! -e out/proved ] && sleep 1 || exit 1; done; done
	$(MAKE) WAITS= check-tests
check-tests: check-c check-built
check-built: | check-c
	$(PYTEST) -m "not quick and not release" --prefix=$(CURDIR)/out/prefix | tee out/tests.log

# The calls from C: as they are, under valgrind, and under sanitizers.
check-c: $(LIBRARY)
	meson test -C out/meson --quiet --print-errorlogs
	! command -v valgrind > out/found || meson test -C out/meson --quiet --print-errorlogs --setup valgrind --suite small
	[ -d out/sanitized ] || meson setup out/sanitized -Dtests=true -Db_sanitize=address,undefined -Db_lundef=false
	meson test -C out/sanitized --quiet --print-errorlogs
	[ -d out/thread ] || meson setup out/thread -Dtests=true -Db_sanitize=thread -Db_lundef=false
	meson test -C out/thread --quiet --print-errorlogs threads

# What was proved, and the hashes of what was built of it, unless the sources have changed since. A release needs this.
record:
	for crate in $(PROGRAMS) bpfcanon_c; do capi/sources $$crate; done | cmp - out/sources
	$(PYTHON) packaging/proved.py out/rt_ci.log out/archive.log $(RELEASE_LOGS) $(MUTATIONS) > out/PROVED.txt || { rm out/PROVED.txt; exit 1; }
check-release:
	$(PYTHON) -m pytest -q -m release --durations=5 | tee out/release.log

# A package that this version of Debian doesn't have is left out.
tools:
	@dpkg -s $(PACKAGES) > out/found 2>&1 || { apt-get -q update && apt-get -qy --no-install-recommends install \
	$$(apt-cache madison $(PACKAGES) | awk '{print $$1}' | sort -u); } || echo "apt doesn't answer: what needs its tools is skipped"

lint:
	$(PYTHON) -m compileall -q tests bindings/python packaging docs
	! command -v pyflakes3 > out/found || pyflakes3 conftest.py tests bindings/python packaging docs tools bench
	for it in $$(git ls-files -s | sed -n 's/^100755.*\t//p'); do case $$(head -1 $$it) in *bash*|*/sh) bash -n $$it || exit 1;; esac; done
	! command -v gofmt > out/found || test -z "$$(gofmt -l bindings/go examples tests | tee /dev/stderr)"
	! command -v rustfmt > out/found || rustfmt --edition 2021 --config-path bindings/rust --check $$(git ls-files 'bindings/rust/*.rs' 'examples/*.rs')
	! command -v mypy > out/found || { MYPYPATH=capi mypy --strict --cache-dir=out/mypy packaging/*.py tools/mutations.py docs/canon.py && cd bindings/python && mypy --cache-dir=$(CURDIR)/out/mypy; }
	! command -v codespell > out/found || codespell -q 3 -L crate README.md docs examples

# The files, and parts of files, that tools/ writes of others: all of it after a change of what they read.
written:
	tools/from_causes && tools/from_header && tools/from_linux && tools/from_mnemonics
	tools/to_python > out/written && cp out/written bindings/python/bpfcanon/header.py
	tools/to_rows > out/written && cp out/written crates/bpfcanon/src/tests/vectors.rt
	tools/to_rust > out/written && cp out/written bindings/rust/src/sys.rs

# --- a release
dist:
	$$(tests/python_with build setuptools wheel || echo python3) packaging/dist.py
clean:
	rm -rf out
