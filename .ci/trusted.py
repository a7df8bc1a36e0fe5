#!/usr/bin/env python3
"""Keeps in docs/TRUST.md what the proofs of the programs that ship rest on: the last line of each
crate's check, and the functions in C whose contracts it reaches.

Usage: .ci/trusted.py LOG [--write]. LOG is what `rt ci` printed, which is compared with the page.
With --write the page gets what LOG has of these crates. It then is best what `rt check
--list-axioms` printed in the folder of each, below a line `== CRATE`: that names each function,
where `rt ci` names three of each crate.
"""
import re
import sys
from pathlib import Path

PAGE = Path(__file__).resolve().parent.parent / 'docs' / 'TRUST.md'
START = '<!-- .ci/trusted.py makes this part -->\n'
SHIPPED = {
    'nonobench': 'the program',
    'web': 'the library, which is also compiled to the module',
    'check_host': 'the checker by itself, library and module',
}
# What says how large a crate is, or how its check was run: a check by hand keeps what earlier ones
# found, and CI does not. The other words say what a proof rests on.
OTHER = re.compile(r'functions=|incremental=|batches=')


def sections(log):
    """The lines of each crate: those after `== NAME`, up to the next such line."""
    found, lines = {}, []
    for line in log.splitlines():
        head = re.match(r'== (\w+)$', line)
        if head:
            lines = found.setdefault(head[1], [])
        lines.append(line)
    return found


def last_words(lines):
    """The words of the last line of a proof, or none where the log has no proof."""
    last = [line for line in lines if line.startswith('logic=proved ')]
    return [word for word in last[-1].split() if not OTHER.match(word)] if last else []


def reached(lines):
    """The functions in C that a check reached, by the crate that declares them."""
    found = {}
    for line in lines:
        reached_line = re.match(r'  ([\w:]+)\s+reached$', line)
        if reached_line:
            crate, _, name = reached_line[1].partition('::')
            found.setdefault(crate, []).append(f'`{name.split("::")[-1]}`')
    for crate, names, more in re.findall(
        r'^axioms (\w+): ([\w:, ]*?)(, \.\.\. )?\((?:\d+) of the', '\n'.join(lines), re.M
    ):
        named = [f'`{name.split("::")[-1].strip()}`' for name in names.split(',')]
        found.setdefault(crate, [*named, 'and others'] if more else named)
    return (
        ' '.join(f'In C, of `{crate}`: {", ".join(names)}.' for crate, names in found.items())
        or 'Nothing in C.'
    )


def item(crate, lines):
    """What the check of a crate printed, as an item of the list."""
    words = last_words(lines)
    return (
        f'- `{crate}`, {SHIPPED[crate]}: {" ".join(f"`{word}`" for word in words)}.'
        f' {reached(lines)}\n'
    )


def faults(found, listed):
    """The crates whose last line in a log of CI has a word that their item does not have. An item
    that is missing is only printed."""
    for crate in SHIPPED:
        line = next((line for line in listed.splitlines() if line.startswith(f'- `{crate}`')), None)
        words = last_words(found.get(crate, []))
        if words and line is None:
            print(f'docs/TRUST.md has no item of {crate} yet: .ci/trusted.py LOG --write makes it')
        for word in words if line is not None else ():
            if f'`{word}`' not in line:
                yield (
                    f'docs/TRUST.md: the proof of {crate} rests on {word}, which is not said there'
                )


def main(words):
    found = sections(Path(words[0]).read_text(encoding='utf-8'))
    before, rest = PAGE.read_text(encoding='utf-8').split(START)
    listed = re.match(r'(?:- .*\n)*', rest)[0]
    if '--write' in words:
        items = {re.match(r'- `(\w+)`', line)[1]: line for line in listed.splitlines(keepends=True)}
        items.update(
            {
                crate: item(crate, found[crate])
                for crate in SHIPPED
                if last_words(found.get(crate, []))
            }
        )
        made = ''.join(items[crate] for crate in SHIPPED if crate in items)
        PAGE.write_text(before + START + made + rest[len(listed) :], encoding='utf-8')
        return 0
    wrong = list(faults(found, listed))
    for fault in wrong:
        print(fault)
    return 1 if wrong else 0


if __name__ == '__main__':
    if not sys.argv[1:]:
        sys.exit('usage: .ci/trusted.py LOG [--write]')
    sys.exit(main(sys.argv[1:]))
