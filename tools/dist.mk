# make run       runs a model on the proved printing program, a line for each step (MODEL=examples/counting)
# make explain   runs a model and says what it did: trace with names, why it ended, the buffers, why rules do not match (MODEL=..)
# make install   installs header, libraries, pkg-config file and programs (PREFIX=/usr/local; DESTDIR is put before it)
# make help      prints these lines
#
# MODEL is a text or an image; its ending .model or .image may be left out, and the text counts where both are there.
# All is built: what 'make test', 'make lib' and 'make bench' of the pages do needs the sources.

MODEL = examples/counting
PREFIX = /usr/local

.PHONY: run explain install help

run:
	@tools/run "$(MODEL)"

explain:
	@tools/explain "$(MODEL)"

install:
	@tools/install "$(DESTDIR)$(PREFIX)" "$(PREFIX)"

help:
	@sed -n '/^#/!q; s/^# \{0,1\}//p' Makefile
