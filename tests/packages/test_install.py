"""Tests of both scripts that install: python3 -m pytest tests/packages/test_install.py. What they
install stands in for a program."""

import hashlib
import os
import platform
import shutil
import subprocess
import tarfile

import pytest
from tried import ROOT, needs

PROGRAM = '#!/bin/sh\necho nonobench 9.9.9\n'
NAME = f'nonobench-9.9.9-linux-{platform.machine()}'


def write(path, text, mode=0o644):
    path.parent.mkdir(parents=True, exist_ok=True)
    path.write_text(text)
    path.chmod(mode)


def files(folder):
    return sorted(str(one.relative_to(folder)) for one in folder.rglob('*') if not one.is_dir())


@pytest.fixture
def archive(tmp_path):
    """A folder as an archive for Linux has it."""
    folder = tmp_path / 'an archive'
    write(folder / 'bin/nonobench', PROGRAM, 0o755)
    write(folder / 'bin/nonobench-old', PROGRAM, 0o755)
    write(folder / 'lib/nonobench/nonobench/__init__.py', '')
    write(folder / 'lib/libnonobench.so.0', '')
    (folder / 'lib/libnonobench.so').symlink_to('libnonobench.so.0')
    for name in (
        'man/man1/nonobench.1',
        'bash-completion/completions/nonobench',
        'fish/vendor_completions.d/nonobench.fish',
        'zsh/site-functions/_nonobench',
        'doc/nonobench/README.md',
    ):
        write(folder / 'share' / name, 'x')
    shutil.copy(ROOT / 'packages/linux/install', folder)
    return folder


@pytest.fixture
def home(tmp_path):
    folder = tmp_path / 'h o m e'
    write(folder / '.local/bin/mine', 'x')
    return folder


@pytest.fixture(params=['dash', 'bash', 'busybox'])
def shell(request, tmp_path):
    """The words that begin a shell, and the search path of its tools."""
    needs(request.param)
    if request.param != 'busybox':
        return [request.param], '/usr/bin:/bin'
    tools = tmp_path / 'tools'
    tools.mkdir()
    subprocess.run(['busybox', '--install', '-s', tools], check=True)
    return [tools / 'sh'], str(tools)


def run(words, home, path='/usr/bin:/bin', cwd='/', **others):
    """The status, and what was printed and said."""
    ended = subprocess.run(
        [str(word) for word in words],
        cwd=cwd,
        env={'PATH': path, 'HOME': str(home), **others},
        capture_output=True,
        text=True,
        check=False,
        umask=0o077,
    )
    return ended.returncode, ended.stdout, ended.stderr


LINKS = [
    'bin/nonobench',
    'share/bash-completion/completions/nonobench',
    'share/fish/vendor_completions.d/nonobench.fish',
    'share/man/man1/nonobench.1',
    'share/zsh/site-functions/_nonobench',
]


def test_installed_updated_and_removed(archive, home, shell, tmp_path):
    words, path = shell
    local, lib = home / '.local', home / '.local/lib/nonobench'
    subprocess.run(['chmod', '-R', 'go=', archive], check=True)
    assert run([*words, archive / 'install'], home, path)[0] == 0
    (archive / 'bin/nonobench-old').unlink()
    said = f'nonobench 9.9.9 is in {lib}, and its commands are in {local}/bin\n'
    assert run([*words, archive / 'install'], home, path) == (0, said, '')
    installed = sorted([*files(archive), '.installed'])
    assert files(lib) == installed
    assert files(local) == sorted(
        ['bin/mine', *LINKS, *(f'lib/nonobench/{name}' for name in installed)]
    )
    assert run([local / 'bin/nonobench'], home) == (0, 'nonobench 9.9.9\n', '')
    assert os.readlink(lib / 'lib/libnonobench.so') == 'libnonobench.so.0'
    for one in lib.rglob('*'):  # others may use it, whatever the mask of who unpacked
        mode = 0o755 if one.is_dir() or one.name == 'install' or 'bin' in one.parts[-2:] else 0o644
        assert one.stat().st_mode & 0o777 == mode, one
    removed = (0, f'removed nonobench from {local}\n', '')
    assert run([*words, lib / 'install', '--uninstall'], home, path) == removed
    assert files(home) == ['.local/bin/mine'] and not lib.exists()
    status, out, err = run([*words, archive / 'install', '--uninstall'], home, path)
    assert (status, out) == (1, '') and err.startswith('install: nothing to remove: there is no ')


def test_another_folder_from_where_we_stand(archive, home, tmp_path):
    words = [archive / 'install', '--prefix', 'here']
    assert run(words, home, cwd=tmp_path, CDPATH=f'.:{tmp_path}')[0] == 0
    assert run([tmp_path / 'here/bin/nonobench'], home) == (0, 'nonobench 9.9.9\n', '')
    assert run([*words, '--uninstall'], home, cwd=tmp_path)[0] == 0
    assert files(tmp_path / 'here') == [] and files(home) == ['.local/bin/mine']


@pytest.mark.parametrize(
    'path', ['nonobench/nonobench/__init__.py', 'nonobench/install', 'nonobench.new/install']
)
def test_what_it_did_not_make_stays(archive, home, path):
    """An older version's folder, and a checkout."""
    write(home / '.local/lib' / path, '')
    there = files(home)
    for words in ([], ['--uninstall']):
        status, out, err = run([archive / 'install', *words], home)
        assert (status, out) == (1, '') and '/share/nonobench/install --uninstall' in err
        assert files(home) == there


def test_an_interrupted_run(archive, home):
    write(home / '.local/lib/nonobench.new/.installed', '')
    assert run([archive / 'install'], home)[0] == 0
    assert os.listdir(home / '.local/lib') == ['nonobench']


def test_a_program_that_does_not_run(archive, home):
    write(archive / 'bin/nonobench', '#!/nowhere\n', 0o755)
    status, out, err = run([archive / 'install'], home)
    said = f'install: the program does not run here: {archive}/bin/nonobench ended with status '
    assert (status, out) == (1, '') and said in err
    assert files(home) == ['.local/bin/mine']


def test_words(archive, home):
    usage = 'usage: ./install [--prefix DIR] [--uninstall]\n'
    for words, wanted in (
        (['--help'], 0),
        (['-h'], 0),
        (['--prefix'], 2),
        (['--prefix', ''], 2),
        (['--other'], 2),
        (['folder'], 2),
        (['--uninstall', 'x'], 2),
    ):
        status, out, err = run(['dash', archive / 'install', *words], home)
        assert status == wanted, words
        assert (out if wanted == 0 else err).startswith(usage) or words[0] == '--prefix', words
    assert files(home) == ['.local/bin/mine']


@pytest.fixture
def checkout(archive, tmp_path):
    """A checkout with a release of the archive, and its sum."""
    folder = tmp_path / 'checkout'
    for name in (
        'install',
        'packages/linux/install',
        'docs/nonobench.1',
        'completions/nonobench.bash',
        'completions/nonobench.fish',
        'completions/_nonobench',
    ):
        (folder / name).parent.mkdir(parents=True, exist_ok=True)
        shutil.copy(ROOT / name, folder / name)
    packed = folder / 'dist' / f'{NAME}.tar.gz'
    packed.parent.mkdir()
    with tarfile.open(packed, 'w:gz') as tar:
        tar.add(archive, NAME)
    digest = hashlib.sha256(packed.read_bytes()).hexdigest()
    write(folder / 'dist/SHA256SUMS', f'{digest}  {packed.name}\n')
    return folder


def test_a_release_in_a_checkout(checkout, home):
    assert run([checkout / 'install'], home)[0] == 0
    assert run([home / '.local/bin/nonobench-old'], home) == (0, 'nonobench 9.9.9\n', '')
    assert run([checkout / 'install', '--uninstall'], home)[0] == 0
    with (checkout / 'dist' / f'{NAME}.tar.gz').open('ab') as file:
        file.write(b'x')
    status, _, err = run([checkout / 'install'], home)
    assert (status, err.splitlines()[-1]) == (
        1,
        f'install: dist/{NAME}.tar.gz is not what dist/SHA256SUMS says',
    )
    assert files(home) == ['.local/bin/mine']


def test_what_a_toolchain_proves_in_a_checkout(checkout, home, tmp_path):
    words = [checkout / 'install', '--proved']
    assert run(words, home) == (
        1,
        '',
        'install: there is no toolchain to prove with: rt is not on the PATH\n',
    )
    built = checkout / 'crates/nonobench/out/nonobench'
    write(checkout / 'examples/heart.ppm', 'P3')
    built.parent.parent.mkdir(parents=True)
    write(
        tmp_path / 'toolchain/rt',
        f'#!/bin/sh\n[ "$*" = run ] && mkdir -p out && cp "{tmp_path}/program" out/nonobench\n',
        0o755,
    )
    write(tmp_path / 'program', PROGRAM, 0o755)
    assert run(words, home, f'{tmp_path}/toolchain:/usr/bin:/bin')[0] == 0
    assert os.access(home / '.local/bin/nonobench', os.X_OK)
    assert files(home / '.local/lib/nonobench') == sorted([*LINKS, '.installed', 'install'])
