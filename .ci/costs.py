#!/usr/bin/env python3
"""Prints what a change in each crate costs, from what `bash .ci/run` printed when it proved
everything.

Usage: .ci/costs.py LOG, where LOG is that output. Each crate has the processor minutes of its own
proofs, tests and builds, of its must-fail edits, and of both together with all crates that depend
on it, the dearest first.
"""
import pathlib
import re
import sys

sys.dont_write_bytecode = True
from crates import listed  # noqa: E402

LINE = re.compile(r'^ {4}([a-z_]+): ((?:proofs|edits|tests|builds) .*)$')
HEAD = 'crate', 'own', 'edits', 'with all above'


def above(crate, lower):
    """The crates that depend on one, itself among them."""
    found = {crate}
    for other, named in lower.items():
        if not found.isdisjoint(named):
            found.add(other)
    return found


def minutes_of(log):
    """The minutes of each crate by kind."""
    minutes = {}
    for line in log.splitlines():
        found = LINE.match(line)
        if found:
            kinds = (part.split() for part in found[2].split(', '))
            minutes[found[1]] = {kind: float(count) for kind, count in kinds}
    return minutes


def main():
    if len(sys.argv) != 2:
        sys.exit('usage: .ci/costs.py LOG')
    text = pathlib.Path(sys.argv[1]).read_text()
    if 'all proved in this run' not in text:
        sys.exit('costs: this run kept proofs of earlier ones, so its minutes say little')
    minutes, lower = minutes_of(text), listed()
    edits = {crate: minutes.get(crate, {}).get('edits', 0) for crate in lower}
    own = {crate: sum(minutes.get(crate, {}).values()) - edits[crate] for crate in lower}
    whole = {crate: sum(own[one] + edits[one] for one in above(crate, lower)) for crate in lower}
    print('{:16}{:>8}{:>8}{:>16}'.format(*HEAD))
    for crate in sorted(minutes.keys() & lower.keys(), key=lambda one: (-whole[one], one)):
        print(f'{crate:16}{own[crate]:8.1f}{edits[crate]:8.1f}{whole[crate]:16.0f}')


if __name__ == '__main__':
    main()
