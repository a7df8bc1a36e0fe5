"""The page's scripts: each file of tests for node, the names and types in the modules, and the page
in browsers."""

import os
import re
from pathlib import Path

import pytest
from tried import needs, node_tests, passes

HERE = Path(__file__).parent
# The first lines say how a file is run; a line of comment may end within that.
FILES = sorted(
    file
    for file in HERE.glob('*.mjs')
    if 'Run: node --test' in file.read_text().replace('\n//', '')
)
# The groups of trials that page_test.mjs has.
GROUPS = re.findall(
    r"^import \* as (\w+) from './page_", (HERE / 'page_test.mjs').read_text(), re.MULTILINE
)


@pytest.mark.parametrize('file', FILES, ids=lambda file: file.stem)
def test_in_node(request, build, file):
    env = {'PAGE': str(request.getfixturevalue('page'))} if file.stem == 'page_limit' else {}
    node_tests(request, file, {**env, 'WASM': str(build.module)})


def test_names_and_types():
    needs('tsc')
    passes(['tsc', '-p', 'page'])


# The page asks what the module has since then.
NEWER = pytest.mark.since('0.8.0')


@NEWER
@pytest.mark.browser
@pytest.mark.parametrize('group', GROUPS)
def test_in_chromium(build, page, group, tmp_path):
    """Trials by mouse, keys and fingers, and what is shown compared with sessions of the program on
    the same picture."""
    needs(
        'node', 'esbuild', 'unzip', 'pdfinfo', 'pdftotext', os.environ.get('CHROMIUM', 'chromium')
    )
    env = {'PAGE': str(page), 'NONOBENCH': str(build.program('nonobench'))}
    passes(['node', HERE / 'page_test.mjs', tmp_path, group], env=env, seconds=6000)


@NEWER
@pytest.mark.browser
def test_in_firefox(build, page, tmp_path):
    needs('node', os.environ.get('FIREFOX', 'firefox-esr'))
    passes(
        ['node', HERE / 'firefox.mjs', tmp_path],
        env={'PAGE': str(page), 'NONOBENCH': str(build.program('nonobench'))},
    )
