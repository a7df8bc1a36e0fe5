"""Runs the tables of library calls and compares what is printed with what they expect.

A line of a table is a call; the lines below it that begin with `= ` have what the program must
print; `#` begins a comment.
"""

import re

import pytest
from tried import BUILT, ROOT, ended, needs_file

TABLES = [
    (folder, file)
    for folder in ('tables', 'search_tables')
    for file in sorted((ROOT / 'tests' / folder).glob('*.table'))
]


@pytest.mark.toolchain
@pytest.mark.parametrize('kind', BUILT, ids=('llvm', 'rattle'))
@pytest.mark.parametrize(('folder', 'file'), TABLES, ids=[file.stem for _, file in TABLES])
def test_table(build, folder, file, kind):
    program = needs_file(build.program(f'{folder}{kind}'), 'rt ci')
    text = file.read_text()
    wanted = [line[2:] for line in text.splitlines() if re.match(r'=( |$)', line)]
    assert wanted, 'it expects nothing'
    run = ended([program], text)
    assert run.status == 0
    assert run.wrote.decode().splitlines() == wanted
