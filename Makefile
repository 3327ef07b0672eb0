# What people run at the top of the repository. `make` prints it.

checks = $(patsubst scripts/check-%,%,$(filter-out %-debian,$(wildcard scripts/check-*)))

help: ## print this list
	@sed -n 's/^\([a-z-]*\):.* ## /  make \1	/p' $(MAKEFILE_LIST) | expand -t 24
	@echo '  make check-NAME       test one of them: $(checks)'

check: ## test all packages without the kit, in parallel
	@rm -rf out/check
	@$(MAKE) --jobs=$$(nproc) --keep-going --output-sync=target --no-print-directory $(checks:%=check-%) || :
	@scripts/tally sum $(checks:%=out/check/%.log)

$(checks:%=check-%): check-%:
	@scripts/check $*

prove: ## prove all crates, reject all mutants and run all tests, with the kit
	rt ci

prove-c: ## prove c/base62.c with Frama-C; BITS=32 for 32-bit targets, MUTANTS=1 for its mutation tests
	@$(if $(MUTANTS),c/proof/test_allowed.py && c/proof/mutate_specification.py,LIMIT=$${LIMIT:-180} c/proof/prove.py)

generate: ## write the generated files anew, after a change of their sources
	tests/make_values.py
	translate/rust.py --write
	node js/join_modules.mjs

ROUNDS = 10
bench: ## time the packages beside other code, and write docs/SPEED.md; BASE62_CRATE names the folder of the crate base62
	bench/run $(ROUNDS)

version: ## set the version everywhere: make version V=X.Y.Z
	scripts/version.py '$(V)'

PREFIX = /usr/local
prefix = $(DESTDIR)$(or $(PREFIX),$(error PREFIX is empty))
install-command: ## install the command, its manual page and completions: make install-command PREFIX=..
	@# Cargo builds a copy: in the clone of a user it would leave files of root.
	@umask 022 && copy=$$(mktemp -d) && trap 'rm -rf "$$copy"' EXIT && mkdir "$$copy/rust" "$$copy/command" && \
	    cp -R rust/Cargo.toml rust/README.md rust/src "$$copy/rust" && cp -R command/Cargo.toml command/src "$$copy/command" && \
	    cargo install --quiet --force --no-track --path "$$copy/command" --root '$(prefix)'
	(cd command && find share -type f) | while read -r file; do \
	    install -D -m 644 command/"$$file" '$(prefix)'/"$$file" || exit; done

uninstall-command: ## remove what install-command has installed: make uninstall-command PREFIX=..
	rm -f '$(prefix)/bin/base62' '$(prefix)/bin/base62_cli'
	(cd command && find share -type f) | while read -r file; do rm -f '$(prefix)'/"$$file"; done

dist: ## pack all packages into a folder: make dist FOLDER=..
	scripts/dist '$(FOLDER)'

setup: ## install by apt-get what the packages and their tests need
	.ci/setup

setup-full: ## install also browsers, Wine, cross compilers, emulators and provers
	.ci/setup all

check-debian: ## try README's lines in a bare Debian, as root: make check-debian SUITE=trixie
	scripts/check-debian '$(SUITE)'

.PHONY: help check $(checks:%=check-%) prove prove-c generate bench version install-command uninstall-command dist setup setup-full \
    check-debian
