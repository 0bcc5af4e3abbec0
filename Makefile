# run: the main job on what ships with the repository. test: the gate. host: the command khx. c-example: the programs in examples/, in C, C++ and
# Rust.
# soak: N cases from a seed asked of both implementations. fuzz: the C face under a fuzzer, SECONDS long.
.PHONY: run test host c-example soak fuzz

library = target/staticlib/libkhalixoshi.a
families = $(shell sed -n 's/^\([a-z_]*\) staticlib:.*/\1/p' crates.txt)
N = 10000000
SEED = 2
SECONDS = 600

run: host
	@mkdir -p target && tools/built packcheck >target/run.log 2>&1 || { cat target/run.log; exit 1; }
	@echo "examples/nightly.pack" && tools/start packcheck < examples/nightly.pack
	@echo "examples/fonts.pack" && tools/start packcheck < examples/fonts.pack
	@tools/need python3 python3 && tools/fonts

test:
	@.ci/run

# The proved library for x86-64, as C and Rust link it: rt proves each family of its face before that is built; then they are merged.
$(library): crates.txt tools/archive tools/placed $(wildcard crates/*/src/*.rt crates/*/src/*/*.rt)
	@echo "building libkhalixoshi.a: its crates are proved first, which takes some minutes" >&2
	@mkdir -p target && (for family in $(families); do echo "== $$family" && (cd crates/$$family && rt lib) || exit 1; done) >target/staticlib.log 2>&1 || { cat target/staticlib.log; exit 1; }
	@tools/archive $(families)

# The same code for this processor, where it is no x86-64, to be timed.
target/native/libkhalixoshi.a: $(library)
	@echo "compiling the library for this processor: its face is proved again, which takes a minute" >&2
	@tools/native $(families)

host: $(library)
	@tools/host build --quiet --release -p khx -p trials
	@tools/khx-launch

c-example: $(library)
	@tools/c-example

soak: host
	@tools/host run --quiet --release -p trials --bin differ -- $(SEED) $(N)

fuzz: $(library)
	@tools/fuzz $(SECONDS)
