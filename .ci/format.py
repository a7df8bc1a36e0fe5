#!/usr/bin/env python3
"""Formats the sources around the engine, or says which are not formatted. `rt fmt` formats crates.

Python is formatted by black (pyproject.toml), JavaScript and C by clang-format (.clang-format), and
styles by css-beautify. With --check nothing is changed; then flake8 (.flake8) and shellcheck look
for mistakes, too. A tool that is missing is named, and its files are left out.

Usage: .ci/format.py [--check]. The status is 1 if something is not formatted, 77 if a tool is
missing, else 0.
"""

import os
import re
import shutil
import subprocess
import sys
import tempfile
from pathlib import Path

ROOT = Path(__file__).resolve().parent.parent
# Node's packages of Debian, which another Node.js does not look for.
PACKAGES = '/usr/share/nodejs'
# What formats files in place, by their kind.
FORMATTERS = {
    'python': ['black', '--quiet'],
    'clang': ['clang-format', '-i'],
    'css': ['css-beautify-js', '--replace', '--end-with-newline', '--indent-size', '2', '--quiet'],
}
# What only looks: at what it prints, a reader sees what is wrong.
LINTERS = {'python': ['flake8'], 'shell': ['shellcheck']}
KINDS = {
    '.py': 'python',
    '.css': 'css',
    **dict.fromkeys(('.js', '.mjs', '.c', '.h', '.cpp'), 'clang'),
}
# What the formatters read.
SETTINGS = ('pyproject.toml', '.clang-format')
# clang-format may take several turns until nothing changes any more.
TURNS = 4
# Behind a place that it cannot read, it leaves all as it is. So copies end with a line to format.
PROBES = {'clang': b'\nx  = 1;\n'}


def kind_of(name):
    """The kind of a file, by its ending or else by the program that its first line names."""
    ending = Path(name).suffix
    if ending in KINDS:
        return KINDS[ending]
    with open(ROOT / name, 'rb') as file:
        first = file.readline(80)
    found = re.match(rb'#!.*\b(python|bash|dash|sh)', first)
    if not found:
        return None
    return 'python' if found[1] == b'python' else 'shell'


def sources():
    """The files of each kind that git tracks, but for those of a release."""
    words = ['git', '-C', str(ROOT), 'ls-files', '-z', '--', '.', ':!dist', ':!docs/audit.html']
    listed = subprocess.run(words, capture_output=True, text=True, check=True).stdout
    found = {}
    for name in listed.rstrip('\0').split('\0'):
        if (ROOT / name).is_file():
            found.setdefault(kind_of(name), []).append(name)
    return found


def run(words, names, folder=ROOT):
    """Runs a tool over files of a folder, and gives its status."""
    env = {**os.environ, 'NODE_PATH': os.pathsep.join([PACKAGES, os.environ.get('NODE_PATH', '')])}
    return subprocess.run([*words, *names], cwd=folder, env=env).returncode


def contents(names, folder=ROOT):
    return {name: (folder / name).read_bytes() for name in names}


def put_in_order(words, names):
    """Formats files until nothing changes."""
    for _ in range(TURNS):
        before = contents(names)
        run(words, names)
        if contents(names) == before:
            return


def disorder(kind, names):
    """What is wrong with files of a kind. The formatter runs over copies, since tests read the
    files."""
    words, probe = FORMATTERS[kind], PROBES.get(kind, b'')
    with tempfile.TemporaryDirectory() as folder:
        for name in SETTINGS:
            shutil.copy(ROOT / name, folder)
        for name, content in contents(names).items():
            copy = Path(folder, name)
            copy.parent.mkdir(parents=True, exist_ok=True)
            copy.write_bytes(content + probe)
        run(words, names, folder)
        after = contents(names, Path(folder))
    for name, content in contents(names).items():
        if probe and after[name].endswith(probe):
            yield f'{name}: {words[0]} cannot read it to its end'
        elif after[name] != content + probe.replace(b'  ', b' '):
            yield f'{name} is not formatted: make format'


def main(words):
    if words not in ([], ['--check']):
        sys.exit('usage: .ci/format.py [--check]')
    files = sources()
    missing, faults = set(), []
    for kind, tool in FORMATTERS.items():
        if not shutil.which(tool[0]):
            missing.add(tool[0])
        elif words:
            faults += disorder(kind, files[kind])
        else:
            put_in_order(tool, files[kind])
    for kind, tool in LINTERS.items() if words else ():
        if not shutil.which(tool[0]):
            missing.add(tool[0])
        elif run(tool, files[kind]):
            faults.append(f'{tool[0]} finds something')
    print(*faults, sep='\n', end='\n' if faults else '')
    if missing:
        print(f'format: skipped: there is no {", no ".join(sorted(missing))}')
    return 1 if faults else 77 if missing else 0


if __name__ == '__main__':
    sys.exit(main(sys.argv[1:]))
