"""The documents: sentences, paths and links, the lists that scripts make, the definitions behind
claims, and what is counted of the code."""

import re
import sys

import pytest
from tried import ROOT, needs, passes

# .ci/prose.py: long sentences, dead paths and links, and README's commands. .ci/crates.py: the list
# of crates. .ci/base.py: what the claims depend on. .ci/promises.py: that each contract can be
# listed. .ci/memory.py: where memory is said to run out. .ci/house.py: places that are hard to
# read.
CHECKS = ('prose', 'crates', 'base', 'promises', 'memory', 'house')


@pytest.mark.parametrize('name', CHECKS)
def test_check(name):
    passes([sys.executable, ROOT / '.ci' / f'{name}.py'])


def test_format():
    """Python, JavaScript, C and styles are formatted, and the linters find nothing."""
    passes([sys.executable, ROOT / '.ci' / 'format.py', '--check'])


def test_types():
    """The package for Python, by mypy; pyproject.toml says what it does not see."""
    needs('mypy')
    passes(['mypy', '--no-incremental', '--cache-dir', '/dev/null'])


def test_quoted_function():
    """The function that CONTRIBUTING.md shows is written so in its file."""
    [quoted] = re.findall(r'(?ms)^```\n( +fn .*?)^```$', (ROOT / 'CONTRIBUTING.md').read_text())
    assert quoted in (ROOT / 'crates' / 'fixpoint' / 'src' / 'in_order.rt').read_text()


def test_tables_of_the_comparison():
    """They are those of the rows."""
    words = ['docs/comparison.csv', '--said', 'docs/COMPARISON.md']
    passes([sys.executable, ROOT / 'measure' / 'others_tables.py', *words])


BROWSERS = r'Edge ([\d.]+), Firefox ([\d.]+), Safari ([\d.]+\d)'


def test_least_browsers():
    """Of the page in its three languages, and of the modules, as their own texts have them."""
    page = re.findall(BROWSERS, (ROOT / 'page' / 'index.html').read_text())
    modules = re.findall(BROWSERS, (ROOT / 'packages' / 'npm' / 'README.md').read_text())
    shown = re.findall(BROWSERS, (ROOT / 'packages' / 'dist-README.txt').read_text())
    assert len(page) == 3 and {*page} == {shown[0]} and modules == shown[1:]
