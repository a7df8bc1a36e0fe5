#!/usr/bin/env python3
"""Prints the promises of the engine: each public call with its comment and its contract.

For each crate of the product, in the order of crates.txt: the types, traits, functions and laws
that its root file makes public, each with the comment of its source and the clauses of its
contract, word for word.

Usage: .ci/promises.py [--of COMMIT | --since COMMIT]: --of prints those of a commit, and --since
what has changed since one, as a diff.
"""
import difflib
import io
import re
import subprocess
import sys
import tarfile
import tempfile
from pathlib import Path

ROOT = Path(__file__).resolve().parent.parent
FRONT = '''# Promises

This page is for those who ask what exactly is proved, call by call. For each crate it lists the
public calls, each with the comment and the contract of its source, word for word. `requires` is
what a caller must show, `ensures` what holds after the call, and `ensures*` what holds after a
borrow has ended. The words of clauses are definitions in crates/*/specs. The crate `claims` proves
the claims of docs/THEOREMS.md from these clauses alone. THEOREMS says what holds of all calls, and
docs/TRUST.md what is only tested.
'''
# The crates of tests, and those that have only laws about calls of others.
OTHERS = {
    'table_words',
    'tables',
    'search_tables',
    'lemma_tables',
    'cert_tables',
    'refused',
    'nonobench',
}
HEAD = re.compile(r'^( *)pub (?:const )?(?:extern "C" )?fn (\w+)|^(    )fn (\w+)')
BLOCK = re.compile(r'^(?:pub )?(impl|trait)\b(?:<.*?>)? *(?:.* for )?(\w+)')


def public_names(root):
    """What a root file makes public: names of items, and modules all of whose functions are."""
    names, modules = set(), set(re.findall(r'^pub mod (\w+);', root, re.M))
    for exported in re.findall(r'^pub use [\w:]+::(?:{([^}]*)}|(\w+));', root, re.M):
        names |= {
            name.strip().split(' as ')[0] for name in ''.join(exported).split(',') if name.strip()
        }
    return names, modules


def comment_before(lines, at):
    """The comment of an item at a line, without attributes between them."""
    while at and lines[at - 1].strip().startswith('#['):
        at -= 1
    found = []
    while at and lines[at - 1].strip().startswith('///'):
        at -= 1
        found.insert(0, lines[at].strip()[3:].strip())
    return ' '.join(found)


def clauses_after(lines, at, indent):
    """The clauses of a function whose head begins at a line, with their continuations."""
    found, inside = [], False
    for line in lines[at + 1 :]:
        if re.match(rf'{indent}(?:\{{|\}}|[^ )])', line) or not line.strip():
            break
        if re.match(r'\s*(?:requires|ensures)', line):
            inside = True
        if inside:
            found.append(line)
    margin = min((len(line) - len(line.lstrip()) for line in found), default=0)
    return [line[margin:].rstrip() for line in found]


def item(name, file, comment, clauses):
    """The lines of a public function with its comment and clauses."""
    yield f'- **`{name}`** ([{Path(file).name}](../{file}))'
    if comment:
        yield from ('', f'  {comment}')
    if clauses:
        yield from ('', '  ```', *(f'  {clause}' for clause in clauses), '  ```')
    yield ''


def calls_of(top, file, names, is_open):
    """The lines of a file's public calls: functions named or in an open module, methods of types
    and traits that are named."""
    lines = (top / file).read_text(encoding='utf-8').split('\n')
    owner = None
    for at, line in enumerate(lines):
        block = BLOCK.match(line)
        if block:
            is_trait_impl = block[1] == 'impl' and ' for ' in line
            owner = None if is_trait_impl else (block[2], block[1] == 'trait')
        elif line.startswith('}'):
            owner = None
        head = HEAD.match(line)
        if not head:
            continue
        name, is_free = head[2] or head[4], line[0] != ' '
        is_public = (
            head[2] and (is_open or name in names)
            if is_free
            else owner and owner[0] in names and (head[2] or owner[1])
        )
        if is_public:
            whole = name if is_free else f'{owner[0]}::{name}'
            yield from item(
                whole,
                file,
                comment_before(lines, at),
                clauses_after(lines, at, head[1] or head[3] or ''),
            )


def part_of(top, crate):
    """The part of the page that is about a crate."""
    folder = top / 'crates' / crate / 'src'
    root = (folder / 'lib.rt').read_text(encoding='utf-8')
    names, modules = public_names(root)
    lines = [
        line
        for path in sorted(folder.rglob('*.rt'))
        for line in calls_of(
            top,
            path.relative_to(top).as_posix(),
            names,
            path.stem in modules or path.name == 'lib.rt',
        )
    ]
    about = re.match(r'//! (.*(?:\n//! .*)*)', root)[1].replace('\n//! ', ' ')
    return [f'## `{crate}`', '', about, '', *lines] if lines else []


def page(top):
    """The page of a tree."""
    crates = [
        line.split(':')[0].split()[0]
        for line in (top / 'crates.txt').read_text(encoding='utf-8').splitlines()
        if line.strip()
    ]
    parts = [line for crate in crates if crate not in OTHERS for line in part_of(top, crate)]
    return '\n'.join([FRONT, *parts]).rstrip() + '\n'


def page_of(commit):
    """The page of the tree of a commit."""
    words = ['git', '-C', str(ROOT), 'archive', commit, 'crates', 'crates.txt']
    packed = subprocess.run(words, capture_output=True, check=True).stdout
    with tempfile.TemporaryDirectory() as folder:
        with tarfile.open(fileobj=io.BytesIO(packed)) as archive:
            archive.extractall(folder)
        return page(Path(folder))


def main(words):
    if not words:
        print(page(ROOT), end='')
    elif len(words) == 2 and words[0] == '--of':
        print(page_of(words[1]), end='')
    elif len(words) == 2 and words[0] == '--since':
        before, now = page_of(words[1]).splitlines(), page(ROOT).splitlines()
        print(*difflib.unified_diff(before, now, words[1], 'now', lineterm=''), sep='\n')
    else:
        sys.exit('usage: .ci/promises.py [--of COMMIT | --since COMMIT]')


if __name__ == '__main__':
    main(sys.argv[1:])
