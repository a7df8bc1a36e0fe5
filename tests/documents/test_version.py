"""The version: that of the sources in each file that names it, and that of the newest release in
those that are about a release."""

import hashlib
import re

import pytest
from tried import BUILT, ROOT, ended, needs, version_of_tree

# Each place of the version of the tree, and the line there that has it.
PLACES = {
    'docs/nonobench.1': r'^This page is of version (.*)\.$',
    'docs/nonobench-audit.1': r'^This page is of version (.*)\.$',
    'c/nonobench.h': r'^#define NONOBENCH_VERSION "(.*)"$',
    'c/nonocheck.h': r'^#define NONOCHECK_VERSION "(.*)"$',
    'crates/check_host/src/calls.rt': r'^const VERSION: &str = "(.*)";$',
    'python/pyproject.toml': r'^version = "(.*)"$',
    'CHANGELOG.md': r'^## ([^ ,]*)',
}


def named(file, pattern):
    """The first version that a file names."""
    return re.search(pattern, (ROOT / file).read_text(), re.MULTILINE)[1]


def newest_release():
    """The newest entry of the changes that has a date."""
    return named('CHANGELOG.md', r'^## ([^ ,]*), [0-9]')


@pytest.mark.parametrize('file', PLACES)
def test_version(file):
    assert named(file, PLACES[file]) == version_of_tree()


@pytest.mark.toolchain
@pytest.mark.parametrize('kind', BUILT, ids=('llvm', 'rattle'))
def test_version_of_a_program(build, kind):
    assert (
        ended([build.program(f'nonobench{kind}'), '--version']).wrote.decode()
        == f'nonobench {version_of_tree()}\n'
    )


def test_version_of_the_report():
    """The report that the documents show was made by this version."""
    assert named('docs/audit.html', r'content="nonobench (.*)">') == version_of_tree()


@pytest.mark.parametrize(
    'picture', sorted(one.name for one in (ROOT / 'docs').glob('*.[pg][ni][gf]'))
)
def test_version_of_a_picture(picture):
    """The commit that last changed a picture of the documents is of this version."""
    needs('git')
    log = ended(['git', '-C', ROOT, 'log', '-1', '--format=%H', '--', f'docs/{picture}'])
    commit = log.wrote.decode().strip()
    if log.status or not commit:
        pytest.skip('this is no checkout of git')
    source = 'crates/program_options/src/version.rt'
    then = ended(['git', '-C', ROOT, 'show', f'{commit}:{source}']).wrote.decode()
    assert f'"{version_of_tree()}"' in then


def test_digest_of_the_release():
    """CHANGELOG.md has it, or from 0.8.0 on the message of the commit that has the release."""
    digest = hashlib.sha256((ROOT / 'dist' / 'SHA256SUMS').read_bytes()).hexdigest()
    needs('git')
    log = ended(['git', '-C', ROOT, 'log', '-1', '--format=%B', '--', 'dist'])
    if log.status:
        pytest.skip('this is no checkout of git')
    message = log.wrote.decode()
    assert digest in message + (ROOT / 'CHANGELOG.md').read_text()


def test_version_of_the_release():
    version = newest_release()
    assert named('CITATION.cff', r'^version: (.*)$') == version
    names = re.findall(r'nonobench[-_]([0-9][0-9.]*[0-9])', (ROOT / 'README.md').read_text())
    assert names and set(names) == {version}
    packages = [
        re.search(r'nonobench(?:-dev)?[-_]([0-9][0-9.]*[0-9])', file.name)
        for file in (ROOT / 'dist').iterdir()
    ]
    assert {found[1] for found in packages if found} == {version}
