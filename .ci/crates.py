#!/usr/bin/env python3
"""Keeps the list of crates in one order: .ci/crates.py [--write]

Each crate has a group, by GROUPS. crates.txt must name the crates group by group, each after those
that it depends on. The list of crates/README.md, between two marks, has two lines a crate: the
first sentence of the crate's root file, and what one changes there, which is written by hand and
kept. So is what follows the list. With --write both files are put into order.
"""
import re
import sys
from pathlib import Path

ROOT = Path(__file__).resolve().parent.parent
README = ROOT / 'crates' / 'README.md'
LIST = ROOT / 'crates.txt'
# The groups, in reading order: what stands there, and its crates.
GROUPS = {
    'Ground': ('pictures and their clues', 'picture flaws clues'),
    'Line': ('one line and its clue', 'line_facts line_settle'),
    'Settling': (
        'all lines together, with a reason for each step',
        'justify fixpoint grade propagate retract',
    ),
    'Checking': (
        'certificates as texts, and their checker',
        'trail cert_text cert_check',
    ),
    'Search': (
        'other pictures, and certificates that there is none',
        'split_choice lemma_search lemma_proof second_search certificate assess',
    ),
    'Bench': ('a picture kept up to date while it is edited', 'edits live_audit'),
    'Outside': (
        'texts, sessions, the program and its hosts',
        (
            'ppm_text text_check non_text command_text report_text session program_options'
            ' command_line answers program claims check_host web nonobench'
        ),
    ),
    'Tests': (
        'programs that only tests run',
        'table_words tables search_tables lemma_tables cert_tables refused',
    ),
}
HEAD = '''# Crates

A reading list: the crates in the order in which one reads them, each after those that it uses (`crates.txt`). The first line says what a crate is, and the second what you would change there. Some mistakes [have no must-fail edit](#what-no-must-fail-edit-guards).

[ARCHITECTURE.md](../docs/ARCHITECTURE.md) says how the crates work together. To see what is claimed, and what a check rests on, read `picture`, `clues`, `line_facts`, `cert_text`, `cert_check` and `claims`, each `specs/` first. `make promises` lists all public calls with their contracts.

<!-- .ci/crates.py makes this part -->
'''  # noqa: E501
FOOT = '''<!-- .ci/crates.py made this part -->

'''


def group_of(crate):
    """The name of a crate's group."""
    return next((group for group, (_, crates) in GROUPS.items() if crate in crates.split()), None)


def rank_of(crate):
    """Where a crate comes in the order of groups; at the end, where it has none."""
    order = [name for _, crates in GROUPS.values() for name in crates.split()]
    return order.index(crate) if crate in order else len(order)


def listed():
    """Each crate of crates.txt with the crates of the repository that it depends on."""
    crates = {}
    for line in LIST.read_text(encoding='utf-8').splitlines():
        if line.strip():
            name, _, deps = line.partition(':')
            crates[name.split()[0]] = [
                word for word in deps.split() if (ROOT / 'crates' / word).is_dir()
            ]
    return crates


def summary_of(crate):
    """The first sentence of a crate's root file, without its full stop."""
    for name in ('lib.rt', 'main.rt'):
        file = ROOT / 'crates' / crate / 'src' / name
        if file.exists():
            found = re.match(r'(?://!.*\n)+', file.read_text(encoding='utf-8'))
            lines = [line[3:].strip() for line in found[0].splitlines()] if found else []
            return (
                ' '.join(lines[: lines.index('')] if '' in lines else lines)
                .split('. ')[0]
                .rstrip('.')
            )
    return ''


def changes(text):
    """What one changes in each crate: the line below the crate's own, which is written by hand."""
    return dict(re.findall(r'^- \[`(\w+)`\].*\n  (\S.*)$', text, re.M))


def page(crates, before, rest):
    """The text of crates/README.md, whose list is followed by the rest; `before` has the lines that
    are written by hand."""
    text, by_hand = HEAD, changes(before)
    for group, (what, _) in GROUPS.items():
        items = ''.join(
            f'- [`{name}`]({name}): {summary_of(name)}.\\\n  {by_hand.get(name, "?")}\n'
            for name in crates
            if group_of(name) == group
        )
        text += f'\n## {group}: {what}\n\n{items}' if items else ''
    return text + FOOT + rest


def put_in_order():
    """Writes crates.txt in the order of groups."""
    lines = [line for line in LIST.read_text(encoding='utf-8').splitlines() if line.strip()]
    lines.sort(key=lambda line: rank_of(line.partition(':')[0].split()[0]))
    LIST.write_text(''.join(f'{line}\n' for line in lines), encoding='utf-8')


def faults(crates, text):
    """What is not in order."""
    seen = set()
    for name, deps in crates.items():
        for dep in deps:
            if dep not in seen:
                yield f'crates.txt: {name} comes before {dep}, on which it depends'
        seen.add(name)
        if group_of(name) is None:
            yield f'.ci/crates.py: {name} has no group'
        if not summary_of(name):
            yield f'crates/{name}: its root file does not begin with what it holds'
    if list(crates) != sorted(crates, key=rank_of):
        yield 'crates.txt is not in the order of groups: run .ci/crates.py --write'
    if not README.exists() or README.read_text(encoding='utf-8') != text:
        yield 'crates/README.md is stale: run .ci/crates.py --write'
    for name in crates.keys() - changes(text.replace('\n  ?\n', '\n')).keys():
        yield f'crates/README.md does not say what one changes in {name}'


def main(words):
    """Writes the list if asked to, and says what is not in order."""
    if words not in ([], ['--write']):
        sys.exit('usage: .ci/crates.py [--write]')
    if words:
        put_in_order()
    crates = listed()
    before = README.read_text(encoding='utf-8')
    text = page(crates, before, before.partition(FOOT)[2])
    if words:
        README.write_text(text, encoding='utf-8')
    found = list(faults(crates, text))
    print(*found, f'crates: {len(found)} faults', sep='\n')
    return 1 if found else 0


if __name__ == '__main__':
    sys.exit(main(sys.argv[1:]))
