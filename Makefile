# Tests without the toolchain: over the program, the library and the module of the release in dist/.
# `bash .ci/run` runs all of CI. `make check TESTS=python/tests` runs some of them. `make format`
# formats all but the crates, and `make promises` lists what the engine promises, in out/.
PYTHONS := python3 /usr/bin/python3
PYTHON := $(firstword $(foreach python,$(PYTHONS),$(shell $(python) -c 'import pytest, xdist' 2>/dev/null && echo $(python))))
MISSING = there is no pytest with xdist: apt install python3-pytest python3-pytest-xdist
JOBS := $(shell nproc)
TEST = $(or $(PYTHON),$(error $(MISSING))) -m pytest --released -n $(JOBS) --dist loadgroup

.PHONY: check check-all format promises
check:
	$(TEST) $(TESTS)

check-all:
	$(TEST) --with all --with browser

format:
	.ci/format.py

promises:
	mkdir -p out
	.ci/promises.py >out/PROMISES.md
	.ci/base.py --all >out/BASE.md
