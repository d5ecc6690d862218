# The commands that people type. `make` prints this list; `make NAME -n` shows what a command runs.
help: ## lists the commands
	@awk -F ':.*## ' '/^[a-z]+:.*## / { printf "  make %-10s %s\n", $$1, $$2 }' $(MAKEFILE_LIST)

setup: ## installs what builds and tests need, or names it
	scripts/setup

build: ## proves and builds lcmux
	scripts/build lcmux replay 1

try: ## runs lcmux without its proof: make try ARGS='replay 8 < examples/first.script'
	scripts/try $(ARGS)

crate: ## proves one crate, and reuses what is proved below it: make crate NAME=lc_book
	cd crates/$(or $(NAME),$(error make crate NAME=lc_book)) && rt check

mutations: ## tries the mutation tests of one crate: make mutations NAME=lc_book
	rt must-fail $(or $(NAME),$(error make mutations NAME=lc_book))

docs: ## checks the documents, the tables in them, and the lists of codes and names
	scripts/docs
	scripts/definitions
	scripts/codes
	scripts/names
	scripts/api
	scripts/distance

quick: ## tests documents, bindings, packages and scripts, without the proofs
	scripts/test quick

test: ## the gate: everything
	scripts/test

bench: ## times two built checkouts by turns: make bench OLD=../old NEW=.
	bench/run $(OLD) $(NEW)

release: ## makes the packages that need no kit, in dist/
	scripts/release

.PHONY: help setup build try crate mutations docs quick test bench release
