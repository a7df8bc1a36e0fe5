"""Whether ./release makes a version only once, and tags only a commit of dist/ that has its digest.

It is run in copies of this checkout, where nothing is built: a release that is not refused ends
with another message, since there is no program.
"""

import hashlib
import shutil

import pytest
from tried import ROOT, VERSION, ended, needs, version_of_tree

GIT = ('git', '-c', 'user.name=x', '-c', 'user.email=x')
DIGEST = hashlib.sha256((ROOT / 'dist' / 'SHA256SUMS').read_bytes()).hexdigest()
SAID = f'Digest of its SHA256SUMS: {DIGEST}'
DATED = f'{version_of_tree()}, 1 December 2026'


@pytest.fixture
def copy(tmp_path):
    """Makes a copy, with a commit, in which the entry of this version is the newest. It has a
    release of this version, or of an older one."""
    needs('git')
    top = tmp_path / 'copy'

    def make(heading=DATED, message=SAID, is_released=True):
        (top / VERSION).parent.mkdir(parents=True)
        for name in ('packages', 'dist'):
            shutil.copytree(ROOT / name, top / name)
        [package] = (top / 'dist').glob('nonobench-*.tgz')
        if is_released:
            shutil.copy(package, top / 'dist' / f'nonobench-{version_of_tree()}.tgz')
        else:
            package.unlink()
        shutil.copy(ROOT / 'release', top)
        shutil.copy(ROOT / VERSION, top / VERSION)
        (top / 'CHANGELOG.md').write_text(f'# Changes\n\n## {heading}\n')
        for words in (['init', '-q'], ['add', '-A'], ['commit', '-qm', message]):
            git(top, *words)
        for name in ('user.name', 'user.email'):
            git(top, 'config', name, 'x')
        return top

    return make


def git(top, *words):
    run = ended([*GIT, *words], cwd=top)
    assert run.status == 0, run
    return run.wrote.decode().strip()


def refused(top, message, *words):
    """./release with some words is refused with a message."""
    run = ended([top / 'release', *words], cwd=top)
    assert run.status != 0
    assert message in (run.wrote + run.said).decode()


def test_a_version_is_made_and_tagged_once(copy):
    top = copy()
    refused(top, f'{version_of_tree()} is in dist/')
    assert ended([top / 'release', '--tag'], cwd=top).status == 0
    tagged = git(top, 'rev-parse', f'v{version_of_tree()}^{{commit}}')
    assert tagged == git(top, 'rev-parse', 'HEAD')
    refused(top, 'already exists', '--tag')


def test_a_version_without_a_date(copy):
    top = copy(f'{version_of_tree()}, not released yet', is_released=False)
    refused(top, f'no entry of {version_of_tree()} with a date')
    refused(top, f'{version_of_tree()} is not in dist/', '--tag')


def test_another_digest(copy):
    refused(copy(message='A release'), 'does not have the digest', '--tag')


def test_nothing_to_compare(copy):
    lacking = 'release: skipped: no rt' if not shutil.which('rt') else 'there is no program'
    refused(copy(), lacking, '--check')


def test_other_files(copy):
    top = copy()
    with open(top / 'dist' / 'nonobench.html', 'ab') as page:
        page.write(b'x')
    git(top, 'commit', '-qam', SAID)
    refused(top, 'are not those of SHA256SUMS', '--tag')
