# The commands of the repository. `make help` lists them.
SHELL := /bin/sh
KERNEL ?= examples/branch.kernel
PARCELS ?= examples/branch.parcels
LINK := target/staticlib/liblink.a
ORACLE := target/oracle
# What runs a program for x86-64: nothing on such a machine, `tools/run` on another.
X86_64 := $(if $(filter x86_64,$(shell uname -m)),,sh tools/run)

COMMANDS := help run readback widen test test-commands docs docs-check oracle sample link compare compare-short check-memory speed count-instructions
export KERNEL PARCELS

.PHONY: $(COMMANDS)

# What can't be done is said before anything is.
UNKNOWN := $(filter-out $(COMMANDS),$(MAKECMDGOALS))
$(if $(UNKNOWN),$(error no command '$(UNKNOWN)' is known: 'make help' lists the commands))
MISSING := $(shell sh tools/needs $(MAKECMDGOALS))
$(if $(MISSING),$(error $(MISSING)))

help: ## this list
	@awk -F ':.*## ' '/^[a-z-]*:.*## / { printf "make %-20s%s\n", $$1, $$2 }' Makefile

run: ## build the bench program and run it on KERNEL (default: examples/branch.kernel)
	@sh tools/program $@ bench KERNEL "$$KERNEL"

readback: ## build the program readback and run it on PARCELS (default: examples/branch.parcels)
	@sh tools/program $@ readback PARCELS "$$PARCELS"

widen: KERNEL := examples/sum.kernel
widen: ## build the program widen and run it on KERNEL (default: examples/sum.kernel): the list with loop tails at full width, and what was changed
	@sh tools/program $@ widen KERNEL "$$KERNEL"

test: ## the verdict, `rt ci`: prove every crate from nothing, try the must-fail edits, run the programs; edits that do not fit the text fail too
	@sh tools/programs $@

test-commands: ## try the commands themselves: what they say of their progress, of failures, of what is missing and of refusals
	@sh tools/test-commands

docs: ## print anew what the documents take from the tree: docs/FORMS.md, its pictures, the tables of docs/PROVED.md and docs/ARCHITECTURE.md; and from a run: docs/ENGINES.md
	@python3 tools/forms
	@python3 tools/believed
	@python3 tools/map
	@sh tools/programs $@ engines
	@python3 tools/engines

docs-check: ## check that the documents are what the definitions, the programs and the scripts say
	@python3 tools/forms --check
	@python3 tools/believed --check
	@python3 tools/map --check
	@sh tools/programs $@ bench readback widen layouts engines
	@sh tools/stored bench readback widen layouts engines
	@python3 tools/examples
	@python3 tools/engines --check

oracle: ## build the driver over the original Rust (QC_ASM=folder of its sources)
	@sh oracle/build

link: ## prove the library and write target/staticlib/liblink.a
	@sh tools/progress $@ lib exports
	@mkdir -p $(dir $(LINK)) && cp crates/exports/out/libexports.a $(LINK)
	@echo "$(LINK) has the functions that crates/exports marks for C"

sample: oracle ## make the stored answers of the original Rust anew
	@sh oracle/store

compare: link ## hold the port against the original Rust: rows, lists by both engines, parcels read back, tails widened, the Rust crate and the C example, some minutes
	@sh oracle/build test
	@LINK_LIB=target/staticlib sh oracle/build compare
	@$(X86_64) $(ORACLE)/compare all
	@sh include/test
	@sh rust/test

compare-short: link ## the same on fewer inputs, a minute or two
	@LINK_LIB=target/staticlib sh oracle/build compare
	@$(X86_64) $(ORACLE)/compare all --short
	@sh include/test

check-memory: link ## run the comparison on few inputs under valgrind, some minutes; on x86-64
	@LINK_LIB=target/staticlib sh oracle/build compare
	@sh include/test
	@sh oracle/check-memory

speed: link ## time both engines of the port, its reader of parcels, its widening of tails and the original Rust, and write docs/SPEED.md and its plot; on x86-64
	@LINK_LIB=target/staticlib sh oracle/build compare
	@$(ORACLE)/compare speed --write docs

count-instructions: link ## count the instructions of the same calls under an emulator, on another processor than x86-64, a quarter of an hour
	@sh oracle/build
	@python3 tools/count-instructions
