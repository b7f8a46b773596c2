# SPDX-License-Identifier: MIT OR Apache-2.0
# Each target runs a script. `make` prints them, with the lines below that begin with two number signs. All targets except `help` need the
# toolchain's rt on your path. If a script needs more, it says so.

.PHONY: help test quick gate prove wrong c rust python board linux secure optee uboot docs page bench

## Print these lines
help:
	@awk -F '[ :]' '/^## / { what = substr($$0, 4) } what && /^[A-Za-z]+( =|:)/ { printf "%-14s%s\n", / =/ ? $$1 "=.." : "make " $$1, what; what = "" }' Makefile

## Test everything over unproved builds, in minutes
# It proves nothing.
test:
	tests/all $(if $(JOBS),--jobs $(JOBS))

## Prove and test the crates that you changed, before a commit
# It takes the crates that differ from where the branch left origin/main, the lowest first. It lays out and proves each. Then it tries the wrong
# bodies that edit a changed file, or that changed themselves. Last it runs the tests that name these crates, without proofs, for at most five
# minutes. It prints which tests it did not reach, and does not fail because of them.
quick:
	tools/changed --tests $(AGAINST)

## Run the merge gate, as CI does
# The gate has all tests unproved, every proof from nothing, wrong bodies, and the tests over the proved program and libraries.
gate:
	.ci/run

## Prove and build the program
prove:
	./ffaplay prove $(if $(JOBS),--jobs $(JOBS))

## Try all wrong bodies over the proofs that are kept
# A landing tries only some. The last line counts them.
wrong:
	tools/wrong-bodies --all --jobs $(or $(JOBS),4) $(CRATES)

## Build the library for C and test it
c:
	c/test.sh

## Build the crate for Rust and test it
rust:
	rust/test.sh

## Build the package for Python and test it
python:
	python/test.sh

## Run the library in a board's firmware, under QEMU
board:
	board/run.sh

## Run Linux as the library's normal world, under QEMU
linux:
	board/linux/run.sh

## Run the library as TF-A's secure partition manager, under QEMU
secure:
	board/secure/run.sh

## Run OP-TEE's own tests over the library, under QEMU
optee:
	board/secure/run.sh optee

## Run U-Boot's own FF-A tests over the library, in U-Boot's sandbox
uboot:
	board/u-boot/run.sh

## Compare the pages with the code
# The scripts also check licence lines, pictures, and the tables and lists that follow from tables of the crates. They add the example's call
# to a copy. They prove nothing. All of them run, and the last line names those that failed.
OF_THE_PAGES = tests/docs tests/licence-lines tests/copies tests/lists tests/a-call tests/pictures
docs:
	@failed=; for each in $(OF_THE_PAGES); do echo $$each; $$each || failed="$$failed $$each"; done; \
	[ -z "$$failed" ] || { echo "failed:$$failed"; exit 1; }

## Test the page of a trace in a browser
page:
	tests/page

## Measure the program
# It measures accesses, transactions, pictures, memory and stack, and, with valgrind, instructions.
bench:
	bench/accesses && bench/transactions && bench/pictures && bench/memory && bench/instructions

## How many at a time (for prove, wrong and test)
# Each process that proves takes some 4 GB of memory. If you do not give a number, ./prove starts one process for each processor that has 4 GB of
# free memory, tools/wrong-bodies four, and tests/all one job for each processor.
JOBS =
## Commit to compare with (for quick)
AGAINST =
## Crates whose wrong bodies to try (for wrong)
CRATES =
