# What to build, and what to check. CONTRIBUTING.md has the time of each.
#   make            the programs uda and uda50 as out/uda and out/uda50, both at once, without proofs
#   make uda50      only the program uda50
#   make install    installs both programs, their man pages, and the completions of uda50 for bash, zsh and fish, below
#                   PREFIX, /usr/local, and below DESTDIR
#   make scenarios  the program that executes scenarios, as out/scenarios, without proofs
#   make library    the library for C as out/libuda50.a and as a shared object, without proofs
#   make install-library
#                   installs that library, its headers and uda50.pc below PREFIX and DESTDIR
#   make test       the tests, without proofs; make check is the same
#   make proofs     the full check: every proof from nothing, tests, all must-fail edits, library for C
#   make clean      removes out/
# `make -C c` builds the proved library for C. All of it needs the command rt of the Rattle toolchain on the path.
top := .
built := out
how := built without proofs

all: programs

include c/library.mk

# Builds both programs at once, without -j too.
programs:
	@$(MAKE) --no-print-directory $(if $(filter -j%,$(MAKEFLAGS)),,-j2) out/uda out/uda50

uda50: out/uda50

scenarios: out/scenarios

# What is built depends on the sources of its crate, and of the crates below that by crates.txt.
.SECONDEXPANSION:
what_builds := crates.txt tools/unproved

out/uda out/uda50 out/scenarios: out/%: $$(shell tools/unproved sources $$*) $(what_builds)
	tools/unproved program $* $@

share = $(DESTDIR)$(PREFIX)/share
bash := bash-completion/completions
zsh := zsh/site-functions
fish := fish/vendor_completions.d

install: programs
	install -d $(DESTDIR)$(PREFIX)/bin $(share)/man/man1 $(share)/$(bash) $(share)/$(zsh) $(share)/$(fish)
	install -m 755 out/uda out/uda50 $(DESTDIR)$(PREFIX)/bin
	install -m 644 man/uda.1 man/uda50.1 $(share)/man/man1
	install -m 644 completions/uda50.bash $(share)/$(bash)/uda50
	install -m 644 completions/_uda50 $(share)/$(zsh)
	install -m 644 completions/uda50.fish $(share)/$(fish)

library: $(built)/libuda50.a $(built)/$(shared)

$(built)/libuda50.a: $$(shell tools/unproved sources uda_c) $(what_builds) c/uda50_file.c c/uda50_machine.c $(headers)
	tools/unproved library $@

test check:
	checks/tests

proofs:
	.ci/run --all

clean:
	rm -rf out

.PHONY: all programs uda50 install scenarios library test check proofs clean
