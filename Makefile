# The commands of this repository. `make help` lists them.
SCRIPT ?= examples/first.talk
# of `make examples`, `make compat`, `make bench-sizes` and `make load`: the folder that `make lib` or `make lib-unproved` leaves
LIB ?= build/c
# of `make bench-long`: how many exchanges go over the one connection
EXCHANGES ?= 1000000
PREFIX ?= /usr/local
# of `make fuzz`: how long each fuzzer runs
SECONDS ?= 60

.PHONY: help run draw build lib lib-unproved install abi dist test-dist dist-roots examples compat test test-c test-compat fuzz refused witnessed bench bench-build bench-page bench-exchange bench-instructions bench-sizes bench-long interop soak upstream-root load need-rt

help: ## list the commands
	@grep -hE '^[a-z-]+:.*## ' $(MAKEFILE_LIST) | sed -E 's/^([a-z-]+):.*## /make \1: /'

# one line where rt is not on the PATH
need-rt:
	@bash scripts/dev/need.sh rt

run: need-rt ## run the program on examples/first.talk, or SCRIPT=file: the answers are printed (compiled without proof, once for the sources, where `make build` left none)
	@python3 scripts/dev/talk.py "$(SCRIPT)"

draw: need-rt ## draw what examples/first.talk, or SCRIPT=file, does, as a sequence diagram (Mermaid; scripts/dev/draw.py SCRIPT --svg FILE: a picture)
	@python3 scripts/dev/draw.py "$(SCRIPT)"

build: need-rt ## prove and build the program, and say where it lies
	@cd crates/h3_talk && rt run < stdin > out.log 2>&1 || { cat out.log; rm -f out.log; exit 1; }; rm -f out.log
	@echo "crates/h3_talk/out/h3_talk"

lib-unproved: need-rt ## build the library for C without the proofs, in one or two minutes, for a first hour: build/c-unproved, marked as unproved
	@bash scripts/c/lib-unproved.sh

lib: need-rt ## prove and build the library for C, C++, Go and Rust, once for its sources: libbeanwhile_h3.a, beanwhile/h3.h and the package files of pkg-config and CMake in build/c
	@bash scripts/c/lib.sh

install: ## install what `make lib` left below PREFIX (/usr/local): lib/libbeanwhile_h3.a and .so.1, include/beanwhile/h3.h, beanwhile-h3.pc; DESTDIR is honoured, and LIBDIR (lib)
	@LIB="$(LIB)" DESTDIR="$(DESTDIR)" PREFIX="$(PREFIX)" LIBDIR="$(LIBDIR)" UNPROVED="$(UNPROVED)" bash scripts/c/install.sh

abi: ## write tests/c/libbeanwhile_h3.abi, the description of the shared library's binary interface that `make test-c` compares
	@python3 scripts/c/abi.py write

dist: need-rt ## pack the library of LIB (build/c) in dist/: a tarball, Debian packages, a Rust crate, a Go module, a Python wheel; one without proofs with UNPROVED=1 alone, and marked
	@UNPROVED="$(UNPROVED)" python3 scripts/dist/dist.py "$(LIB)" dist

dist-roots: ## make in build/roots, once and as root, roots of Debian 12 and 13 with compilers and no kit, for `make test-dist`
	@bash scripts/dist/roots.sh

test-dist: ## install what `make dist` left in roots of Debian 12 and 13, and build and run a program in each language there (as root)
	@LIB="$(LIB)" bash scripts/dist/test-dist.sh dist

examples: ## build the examples in C, Go and Rust over the folder that `make lib` leaves, or LIB=build/c-unproved (one alone: make -C examples/rust)
	@bash scripts/dev/need.sh library "$(LIB)"
	@bash scripts/dev/packages.sh examples
	@for language in c go rust; do $(MAKE) --no-print-directory -C examples/$$language LIB="$(abspath $(LIB))" || exit 1; done

compat: ## build the drop-in for nghttp3 over the folder that `make lib` leaves, or LIB=build/c-unproved: build/compat/libnghttp3.so.9 and .so.3 (compat/nghttp3)
	@bash scripts/dev/need.sh library "$(LIB)"
	@bash scripts/compat/build.sh "$(LIB)"

test-compat: ## test the drop-in for nghttp3 beside Debian's own, over the folder that `make lib` leaves, or LIB=build/c-unproved: a minute or two
	@bash scripts/dev/need.sh library "$(LIB)"
	@bash scripts/compat/test.sh "$(LIB)"

fuzz: ## fuzz the library for SECONDS=60 by each program of tests/fuzz (libFuzzer), over the folder that `make lib` leaves, or LIB=build/c-coverage, which `make lib-unproved COVERAGE=1` leaves
	@bash scripts/dev/need.sh library "$(LIB)"
	@bash scripts/c/fuzz.sh "$(SECONDS)" "$(LIB)"

test-c: need-rt ## build the library, and run the C programs of tests/c over it, and the tests of the packages for Go and Rust
	@bash scripts/c/test-c.sh

test: need-rt ## prove every crate from nothing, try the edits of crates/*/refused by the prover and by runs, run the tests and the programs
	@bash scripts/gate/logged.sh bash scripts/gate/test.sh

refused: need-rt ## let the prover try all edits of crates/*/refused, or of CRATE=name, those with a line `judged:` too: run it before a contract changes
	@python3 scripts/gate/refused.py $(CRATE)

witnessed: need-rt ## run each edit of crates/*/refused with a line `judged:`, or of CRATE=name, at its witness, the input whose answer it changes; FIND=1 finds witnesses and writes them
	@python3 scripts/gate/witnesses.py $(if $(FIND),--find) $(CRATE)

bench: need-rt ## print our figures beside nghttp3's and plain C's, measured in one run
	@bash scripts/bench/bench.sh

bench-build: need-rt ## build what make bench measures, and measure nothing
	@BUILD_ONLY=1 bash scripts/bench/bench.sh

bench-page: ## measure what make bench-build left, and write the tables of bench/RESULTS.md and docs/PERFORMANCE.md
	@bash scripts/dev/need.sh bench
	@bash scripts/bench/bench.sh page

bench-exchange: need-rt ## of these the rows of whole exchanges alone, over the library for C
	@bash scripts/bench/bench.sh exchange

bench-instructions: ## print how many instructions an exchange takes, ours and nghttp3's (valgrind), over the folder that `make lib` leaves, or LIB=build/c-unproved
	@LIB="$(LIB)" bash scripts/bench/instructions.sh

bench-sizes: ## print how large header sections are, ours beside nghttp3's and ls-qpack's, and have both decoders read ours, over the folder that `make lib` leaves, or LIB=build/c-unproved
	@LIB="$(LIB)" bash scripts/bench/sizes.sh

bench-long: ## print what a connection that lives long costs, EXCHANGES=1000000 on it, over the folder that `make lib` leaves, or LIB=build/c-unproved
	@bash scripts/dev/need.sh library "$(LIB)"
	@rm -f bench/out/long && $(MAKE) --no-print-directory -s -C bench out/long FOLDER="$(abspath $(LIB))"
	@bench/out/long $(EXCHANGES)

interop: need-rt ## show that nghttp3 reads what we write and we what it writes, and that the examples talk with HTTP/3 peers over QUIC, over what `make lib` leaves, or LIB=build/c-unproved; LANES=3: three scripts at a time
	@LIB="$(if $(filter command% environment%,$(origin LIB)),$(LIB))" bash scripts/interop/interop.sh

upstream-root: ## make in build/trixie, once and as root, a root of Debian 13 with the Rust crate h3 and further peers, for `make interop`
	@bash scripts/interop/upstream.sh root

soak: ## run the example server and proxy in C beside readers, cancels, resets and hostile clients for SECONDS=1800, over the folder that `make lib` leaves: memory and descriptors have to end where they began
	@bash scripts/dev/need.sh library "$(LIB)"
	@LIB="$(abspath $(LIB))" bash scripts/interop/soak.sh $(if $(filter command% environment%,$(origin SECONDS)),$(SECONDS),1800)

load: ## print what the example servers carry under load, beside gtlsserver and Caddy, over the folder that `make lib` leaves
	@bash scripts/dev/need.sh library "$(LIB)"
	@LIB="$(LIB)" bash scripts/bench/load.sh
