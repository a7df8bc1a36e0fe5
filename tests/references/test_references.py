"""The programs beside a plain reference in Python and brute force over all small pictures, each by
a program of its own."""

import sys
from pathlib import Path

import pytest
from tried import BUILT, needs_file, passes

HERE = Path(__file__).parent
pytestmark = pytest.mark.all


def compares(script, *words, **more):
    passes([sys.executable, HERE / script, *words], **more)


def test_small_pictures(build):
    """One listing serves all programs."""
    compares(
        'small_pictures.py',
        *[build.program(f'nonobench{kind}') for kind in BUILT if not (kind and build.released)],
    )


@pytest.mark.toolchain
def test_small_bounds(build):
    compares(
        'small_bounds.py',
        *[needs_file(build.program(f'search_tables{kind}'), 'rt ci') for kind in BUILT],
    )


@pytest.mark.toolchain
@pytest.mark.parametrize('kind', BUILT)
@pytest.mark.parametrize(
    ('script', 'tables'), [('lemma_pictures.py', 'lemma_tables'), ('plain_forms.py', 'cert_tables')]
)
def test_certificates(build, script, tables, kind):
    """With lemmas; and of all forms, with and without published givens, against a checker that was
    written from the documents alone."""
    compares(script, needs_file(build.program(f'{tables}{kind}'), 'rt ci'))


@pytest.mark.parametrize('part', ('givens', 'lot', 'documents'))
def test_assessments(library, part):
    """Assessments and paths of line logic, in one process of the library."""
    compares('assessments.py', library, part)


def test_cases_made_by_chance(build, tmp_path):
    """Some seeded cases of the fuzzer, the same each time."""
    compares(
        'fuzz.py',
        '1000',
        '1',
        env={'PROGRAM': str(build.program('nonobench')), 'FUZZ_FOLDER': str(tmp_path)},
    )
