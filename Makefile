# make run       runs a model on the proved printing program, a line for each step (MODEL=examples/counting)
# make explain   runs a model and says what it did: trace with names, why it ended, the buffers, why rules do not match (MODEL=..)
# make test      proves and tests everything; the last line is 'N passed, 0 failed'
# make lib       builds the library for C, static and shared, in target/lib
# make wheel     builds the Python module with its library as a wheel
# make install   installs header, libraries, pkg-config file and programs (PREFIX=/usr/local; DESTDIR is put before it)
# make dist      packs all that a user needs, built, in target/dist: libraries, programs, wheel, pages, examples
# make bench     measures what calls cost beside an independent engine in Rust, as tables for docs/SPEED.md (PEERS=1: and CLIPS)
# make help      prints these lines
#
# MODEL is a text or an image; its ending .model or .image may be left out, and the text counts where both are there.

MODEL = examples/counting
PREFIX = /usr/local
BENCH = cargo run --offline --release --manifest-path host/Cargo.toml -p jirvuntsag-bench --features fetches

.PHONY: run explain test lib wheel install dist bench help

run:
	@tools/run "$(MODEL)"

explain:
	@tools/explain "$(MODEL)"

test:
	@tools/test

lib:
	@tools/lib

wheel:
	@tools/wheel

install:
	@tools/install "$(DESTDIR)$(PREFIX)" "$(PREFIX)"

dist:
	@tools/dist

bench:
	@tools/archive
	@tools/bench-archive
	@$(BENCH)
	@$(if $(PEERS),$(BENCH) -- --peers)

help:
	@sed -n '/^#/!q; s/^# \{0,1\}//p' Makefile
