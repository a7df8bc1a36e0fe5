#!/usr/bin/env python3
"""Reads the documents and says what a reader would stumble over.

For each *.md of the repository, or those that are named: a sentence above 40 words, and a link or a
path that leads nowhere. Of some documents also:
- README.md: a command that CI does not run;
- docs/THEOREMS.md: a name that the file, which is named after it, does not have;
- docs/TRUST.md: a file with another number of lines than is written after its name.

And the file KIT must have a line with the logic that `rt version` prints, if there is an rt.

A sentence's words are those that have a letter or a digit. A block of README.md that begins with
```sh is run by tests/documents/test_commands.py. A block that begins with ```sh build holds
commands that only build or serve; each must begin as one of BUILDS. No other block may be named sh.

Usage: .ci/prose.py [DOCUMENT ..]
"""

import os
import re
import shutil
import subprocess
import sys
from pathlib import Path

ROOT = Path(__file__).resolve().parent.parent
MOST_WORDS = 40
# Folders that are not read, since they are built, installed or copied.
UNREAD = {'.git', 'env', 'out', 'must-fail', 'target'}
# Folders in which a path that is named must exist, and commands that build, prove or serve.
FOLDERS = r'docs|crates|measure|tests|examples|page|web|python|\.ci'
BUILDS = (
    'bash .ci/run',
    '(cd crates/nonobench && rt try ',
    '(cd crates/nonobench && rt run ',
    'install -D ',
    'export PATH=',
    'web/build',
    'python3 -m venv env',
    'env/bin/pip install dist/',
    'env/bin/nonobench-audit ',
)


def documents():
    """The names of all documents, below the top."""
    for folder, folders, names in os.walk(ROOT):
        folders[:] = sorted(set(folders) - UNREAD)
        for name in sorted(names):
            if name.endswith('.md'):
                yield Path(folder, name).relative_to(ROOT).as_posix()


def text_of(name):
    return (ROOT / name).read_text(encoding='utf-8')


def blocks(text):
    """Gives (line number, info, lines) for each code block, and the text with those lines blank."""
    found, outside, inside = [], [], None
    for number, line in enumerate(text.split('\n'), 1):
        is_fence = line.lstrip().startswith('```')
        outside.append('' if is_fence or inside is not None else line)
        if is_fence and inside is None:
            inside = (number, line.strip()[3:].strip(), [])
            found.append(inside)
        elif is_fence:
            inside = None
        elif inside is not None:
            inside[2].append(line)
    return found, outside


def units(lines):
    """Cuts prose into paragraphs, items, headings and cells, each with its first line's number."""
    number, part = 0, []
    for at, line in enumerate([*lines, ''], 1):
        text = line.strip()
        starts = not text or re.match(r'(#|\||[-*+] |\d+\. |>)', text)
        if starts and part:
            yield number, ' '.join(part)
            part = []
        if text.startswith('|'):
            for cell in re.sub(r'`[^`]*`', 'code', text).strip('|').split('|'):
                yield at, cell
        elif text:
            number = number if part else at
            part.append(re.sub(r'^(#+|[-*+]|\d+\.|>) ', '', text))
            if text.startswith('#'):
                yield number, part.pop()


def sentences(unit):
    text = re.sub(r'`[^`]*`', 'code', unit)
    text = re.sub(r'!?\[([^\]]*)\]\([^)]*\)', r'\1', text)
    return re.split(r'(?<=[.!?])[)\"\'*_]*\s+(?=[A-Z(\"\'`*_c0-9])', text)


def anchors(path):
    heads = re.findall(r'^#+ (.*)$', path.read_text(encoding='utf-8'), re.MULTILINE)
    return {re.sub(r'[^\w\- ]', '', head.lower()).replace(' ', '-') for head in heads}


def exists(path, folder):
    """Whether a path that a document names is there. One with an open part is not looked for."""
    path = path.rstrip('.,:;')
    if re.search(r'[*{}<>$]|\b[A-Z]{2,}\b(?!\.md)|/out\b', path) and not path.endswith('.md'):
        return True
    crate, edit = os.path.split(path)
    paths = [path, os.path.join('crates', crate, 'must-fail', edit + '.edit')]
    return any((base / name).exists() for base in (ROOT, folder) for name in paths)


# Each check gives (line, fault) for the lines of a document, in which code is blank.


def long_sentences(lines):
    for number, unit in units(lines):
        for sentence in sentences(unit):
            words = [word for word in sentence.split() if re.search(r'\w', word)]
            if len(words) > MOST_WORDS:
                yield number, f'a sentence of {len(words)} words: {" ".join(words[:8])} ..'


def dead_links(lines, path):
    for number, line in enumerate(lines, 1):
        for target in re.findall(r'\]\(([^)\s]+)\)', line):
            file, _, anchor = target.partition('#')
            aim = path.parent / file if file else path
            if re.match(r'[a-z]+:', target):
                continue
            if not aim.exists():
                yield number, f'a link to nothing: {target}'
            elif anchor and aim.suffix == '.md' and anchor not in anchors(aim):
                yield number, f'a link to no heading: {target}'


def dead_paths(lines, folder):
    named = re.compile(rf'(?<![\w./$\"])(?:{FOLDERS})/[\w./*{{}}<>$-]*')
    for number, line in enumerate(lines, 1):
        plain = re.sub(r'\]\([^)]*\)', ']', line)
        for path in named.findall(plain):
            if not exists(path, folder):
                yield number, f'a path to nothing: {path}'
        for name in re.findall(r'(?<![\w./])[A-Z_]{3,}\.md\b', plain):
            if not any((base / name).exists() for base in (ROOT, folder, ROOT / 'docs')):
                yield number, f'a path to nothing: {name}'


def missing_names(lines):
    """The names that docs/THEOREMS.md cites, before the file that should have them, and that are
    not in that file."""
    for number, line in enumerate(lines, 1):
        for sentence in re.split(r'(?<=[.:]) (?=[A-Z])', line):
            yield from ((number, fault) for fault in missing_in(sentence))


def missing_in(sentence):
    names, folder = [], ROOT
    for code in re.findall(r'`([^`]*)`', sentence):
        if not re.search(r'^crates/|\.rt$', code):
            names.append(code.split('::')[-1])
            continue
        path = ROOT / code if code.startswith('crates/') else folder / code
        folder = path.parent
        files = [path] if path.is_file() else sorted(path.iterdir())
        text = ''.join(file.read_text(encoding='utf-8') for file in files)
        for name in names:
            if not re.search(rf'(?<!\w){re.escape(name)}(?!\w)', text):
                yield f'{code} does not have {name}'
        names = []


def wrong_lengths(lines):
    """The files of docs/TRUST.md, as `PATH` (N lines), that have another number of lines."""
    for number, line in enumerate(lines, 1):
        for path, said in re.findall(r'`([\w./]+)` \((\d+) lines\)', line):
            found = len(text_of(path).splitlines())
            if found != int(said):
                yield number, f'{path} has {found} lines, not {said}'


def unknown_blocks(found):
    """The blocks of README.md that tests neither run nor know."""
    for number, info, lines in found:
        if info.split()[:2] == ['sh', 'build']:
            for at, line in enumerate(lines, number + 1):
                if line.strip() and not line.startswith(BUILDS):
                    yield at, f'a command that CI does not run: {line.strip()}'
        elif not (info in ('text', 'sh', 'python') or info.startswith('sh needs ')):
            kinds = 'sh, sh needs TOOL, sh build, python or text'
            yield number, f'a block that is not {kinds}: {info or "no name"}'


def faults_of(name):
    """The faults of a document, each with its line."""
    path = ROOT / name
    found, lines = blocks(text_of(name))
    yield from long_sentences(lines)
    yield from dead_links(lines, path)
    yield from dead_paths(lines, path.parent)
    if name == 'README.md':
        yield from unknown_blocks(found)
    if name == 'docs/THEOREMS.md':
        yield from missing_names(lines)
    if name == 'docs/TRUST.md':
        yield from wrong_lengths(lines)


def kit_fault():
    """What KIT says of the logic must be what rt says; another toolchain with the same logic is
    named, and is no fault."""
    if shutil.which('rt') is None:
        return None
    version = subprocess.run(['rt', 'version'], capture_output=True, text=True).stdout.strip()
    known = text_of('KIT').splitlines()
    if version in known:
        return None
    if version.partition(' ')[2] in [line.partition(' ')[2] for line in known]:
        print(f'KIT has no line {version!r}, which rt version says, and one with the same logic')
        return None
    return f'KIT has no line with the logic of {version!r}, which rt version says'


def main():
    named = sys.argv[1:]
    found = [
        f'{name}:{number}: {fault}'
        for name in named or documents()
        for number, fault in sorted(faults_of(name))
    ]
    if not named and kit_fault():
        found.append(kit_fault())
    print(*found, f'prose: {len(found)} faults', sep='\n')
    return 1 if found else 0


if __name__ == '__main__':
    sys.exit(main())
