"""Runs the commands of README.md, of docs/RECIPES.md and of the READMEs of the packages, each
page's in one folder, and compares what they print with what the page shows. TUTORIAL and
FILE-FORMATS have none.

README's folder has a copy of what its commands name. So its commands of installing are run, and
install the release below a home of their own. As on a new account, nothing of that is on the PATH.

A block that begins with ```sh is run; it must end with status 0. A following block that begins with
```text is all that it prints, on standard output and standard error. One that begins with ```sh
build is not run: its commands would prove everything again, install packages, or serve without end
(.ci/prose.py knows them). A block that begins with ```sh sites wants what a reader has installed:
the wheel's command and library, and below PREFIX the C library. It may also say how far an audit
is. The READMEs of the packages have blocks of no or of another language: what they need comes
before them here."""

import difflib
import os
import re
import shutil
import subprocess
import sys
import zipfile

import pytest
from tried import EXAMPLES, ROOT, clean_env, ended, needs, passes

PROGRESS = r'(?m)^nonobench-audit: [0-9]+( of [0-9]+)? files, .*\n'
README = ROOT / 'README.md'
RECIPES = ROOT / 'docs' / 'RECIPES.md'


def blocks_of(page, first):
    """The commands of a page's blocks that begin with a line, and what they print, or None."""
    found = []
    for line, content in re.findall(r'(?ms)^```([^\n]*)\n(.*?)^```$', page.read_text()):
        if line == 'text' and found and found[-1][1] is None:
            found[-1][1] = content
        else:
            found.append([content if line == first else None, None])
    return [(commands, printed) for commands, printed in found if commands is not None]


def run_blocks(blocks, folder, env, without=None):
    """Runs blocks one after the other."""
    for commands, wanted in blocks:
        run = ended(
            ['bash', '-e', '-c', commands],
            cwd=folder,
            env=env,
            stdin=subprocess.DEVNULL,
            stderr=subprocess.STDOUT,
        )
        printed = run.wrote.decode()
        assert run.status == 0, f'{commands}\nended with {run.status}:\n{printed[-3000:]}'
        printed = re.sub(without, '', printed) if without else printed
        if wanted is not None and printed != wanted:
            lines = wanted.splitlines(True), printed.splitlines(True)
            differences = difflib.unified_diff(*lines, 'the page', 'printed')
            pytest.fail(commands + ''.join(differences), pytrace=False)


def test_commands_of_readme(tmp_path):
    (tmp_path / 'home').mkdir()
    here = tmp_path / 'checkout'
    here.mkdir()
    for name in ('examples', 'packages', 'dist'):
        (here / name).symlink_to(ROOT / name)
    shutil.copy(ROOT / 'install', here)
    blocks = blocks_of(README, 'sh')
    assert blocks
    env = {**os.environ, 'HOME': f'{tmp_path}/home'}
    env.pop('CDPATH', None)
    run_blocks(blocks, here, env)


@pytest.fixture
def wheel(tmp_path):
    """The environment in which Python has the wheel that README installs."""
    [name] = re.findall(r'pip install (dist/\S+\.whl)', README.read_text())
    with zipfile.ZipFile(ROOT / name) as packed:
        packed.extractall(tmp_path)
    without = {name: value for name, value in os.environ.items() if name != 'NONOBENCH_LIBRARY'}
    return {**without, 'PYTHONPATH': str(tmp_path)}


def test_python_of_readme(wheel):
    """README's picture is ambiguous, as it says, and the block is not refused."""
    [(block, _)] = blocks_of(README, 'python')
    run = ended([sys.executable, '-c', block], cwd=ROOT, env=wheel)
    assert (run.status, run.said) == (0, b'')
    assert run.wrote.startswith(b'Ruling.AMBIGUOUS ')


def test_audit_of_readme(wheel):
    """README's audit prints a line for each example, and ends with status 1."""
    [words] = re.findall(r'(?m)^env/bin/nonobench-audit (.*)$', README.read_text())
    names = sorted(file.relative_to(ROOT).as_posix() for file in ROOT.glob(words))
    run = ended([sys.executable, '-m', 'nonobench.audit', *names], cwd=ROOT, env=wheel)
    assert run.status == 1
    assert re.findall(r'(?m)^.* (examples/[^\s;]+)', run.wrote.decode()) == names


def test_pages_without_commands():
    for name in ('TUTORIAL.md', 'FILE-FORMATS.md'):
        assert '```' not in (ROOT / 'docs' / name).read_text()


def for_sites(page):
    """The blocks of a page that want what a reader has installed."""
    blocks = blocks_of(page, 'sh sites')
    assert len(blocks) > 1
    return blocks


@pytest.mark.since('0.8.0')
def test_commands_for_sites(build, library, tmp_path):
    """What a reader has installed is made of the checkout."""
    pytest.importorskip('PIL', reason='there is no Pillow')
    needs('cc')
    installed = tmp_path / 'installed'
    for name in ('bin', 'include', 'lib'):
        (installed / name).mkdir(parents=True)
    commands = {
        'python3': '',
        'nonobench-audit': ' -m nonobench.audit',
    }
    for name, words in commands.items():
        command = installed / 'bin' / name
        command.write_text(f'#!/bin/sh\nexec {sys.executable}{words} "$@"\n')
        command.chmod(0o755)
    shutil.copy(build.program('nonobench'), installed / 'bin')
    shutil.copy(ROOT / 'c' / 'nonobench.h', installed / 'include')
    shutil.copy(library.with_suffix('.a'), installed / 'lib')
    here = tmp_path / 'recipes'
    here.mkdir()
    env = {
        **os.environ,
        'NONOBENCH': str(ROOT),
        'PREFIX': str(installed),
        'PYTHONPATH': str(ROOT / 'python' / 'src'),
        'PATH': f'{installed}/bin:{os.environ["PATH"]}',
    }
    run_blocks(for_sites(RECIPES), here, env, without=PROGRESS)


@pytest.mark.all
@pytest.mark.compiler
def test_commands_for_sites_by_the_archive(installed, tmp_path):
    """By what the archive for Linux installed, and nothing else."""
    needs('cc')
    shown = installed / 'share' / 'doc' / 'nonobench'
    env = clean_env(
        before=installed / 'bin',
        NONOBENCH=shown,
        PREFIX=installed,
        PYTHONPATH=installed / 'lib' / 'nonobench',
    )
    run_blocks(for_sites(shown / 'docs' / 'RECIPES.md'), tmp_path, env, without=PROGRESS)


# ---- the READMEs of the packages


def test_commands_of_the_examples(nonobench, tmp_path):
    """Each session prints the file with its answers."""
    shutil.copy(nonobench, tmp_path)
    env = {**os.environ, 'PATH': f'{tmp_path}:{os.environ["PATH"]}'}
    [(block, _)] = blocks_of(EXAMPLES / 'README.md', '')
    for command in block.splitlines():
        [session] = re.findall(r'< (\S+)\.session$', command)
        run_blocks([(command, (ROOT / f'{session}.out').read_text())], ROOT, env)


@pytest.mark.since('0.8.0')
def test_python_of_its_readme(library, tmp_path):
    """Its blocks in Python, over the picture and the certificate of an example."""
    pytest.importorskip('PIL', reason='there is no Pillow')
    blocks = blocks_of(ROOT / 'python' / 'README.md', 'python')
    assert len(blocks) > 3
    begin = """from pathlib import Path
examples = Path(EXAMPLES)
picture = (examples / 'diagonal.ppm').read_bytes()
certificate = (examples / 'diagonal.ppm.cert').read_bytes()
data = (examples / 'duck.png').read_bytes()
""".replace(
        'EXAMPLES', repr(str(EXAMPLES))
    )
    text = begin + ''.join(block for block, _ in blocks)
    run = ended([sys.executable, '-c', text], cwd=tmp_path)
    assert (run.status, run.wrote, run.said) == (0, b'heart.png False ambiguous\n', b'')


@pytest.mark.all
def test_commands_of_the_readme_for_npm(npm, tmp_path):
    """Its commands and its blocks in JavaScript, where the package is installed."""
    needs('npx')
    page = ROOT / 'packages' / 'npm' / 'README.md'
    for ending in ('ppm', 'cert'):
        name = {'ppm': 'diagonal.ppm', 'cert': 'diagonal.ppm.cert'}[ending]
        shutil.copy(EXAMPLES / name, npm / f'picture.{ending}')
    [command] = re.findall(r'^npx (nonobench check .*)$', page.read_text(), re.MULTILINE)
    run_blocks([(f'npx --offline {command}', 'certificate accepted\n')], npm, dict(os.environ))
    blocks = blocks_of(page, 'js')
    assert len(blocks) > 2
    begin = """import { readFileSync } from 'node:fs';
const [picture, certificate] = ['ppm', 'cert'].map((name) => readFileSync(`picture.${name}`));
"""
    (npm / 'blocks.mjs').write_text(begin + ''.join(block for block, _ in blocks))
    run = ended(['node', 'blocks.mjs'], cwd=npm)
    assert (run.status, run.wrote, run.said) == (0, b'', b'')


@pytest.mark.all
@pytest.mark.compiler
@pytest.mark.since('0.8.0')
def test_commands_of_the_readme_for_linux(made, tmp_path):
    """In the archive, with a home of their own."""
    needs('cc', 'pkg-config', 'man')
    passes(['tar', 'xzf', next(made.glob('*-linux-x86_64.tar.gz')), '-C', tmp_path])
    [unpacked] = tmp_path.iterdir()
    blocks = blocks_of(ROOT / 'packages' / 'linux' / 'README.md', '')
    assert len(blocks) == 2
    env = {**os.environ, 'HOME': str(tmp_path / 'home'), 'MANPAGER': 'cat'}
    run_blocks(blocks, unpacked, env)
