"""The packages for other systems: they have what was made for these systems, which the tests beside
this file run, and are unpacked, and asked for a check, as their users would."""

import os
import shutil
import sys

import pytest
from systems import ON_LINUX, ON_WINDOWS, linked
from tried import EXAMPLES, ROOT, Ended, clean, ended, named, needs, passes

pytestmark = [pytest.mark.all, pytest.mark.toolchain, pytest.mark.compiler, pytest.mark.emulator]
YES = Ended(0, b'certificate accepted\n', b'')
# What the example for C prints of diagonal.ppm, by hand as in tests/cases/fit.txt.
FIT = Ended(0, b'unique\nsize 2 2\ncolours 3\ngivens 0\nopen 0\ngrade easy 1 4 3 0 0\nfit\n', b'')


def are_those(folder, files, tested):
    """The files that are packed are those that were tested."""
    for path, name in files.items():
        assert (folder / path).read_bytes() == (tested / name).read_bytes(), path


@ON_LINUX
def test_archive(system, made, tmp_path):
    package = named(made, 'nonobench-*-linux-aarch64.tar.gz')
    passes(['tar', 'xzf', package, '-C', tmp_path])
    folder = tmp_path / package.name[: -len('.tar.gz')]
    paths = ['bin/nonobench', 'lib/nonobench/nonobench/libnonobench.so']
    paths += [
        f'lib/lib{name}' for name in ('nonobench.a', 'nonobench.so', 'nonocheck.a', 'nonocheck.so')
    ]
    paths += ['include/nonobench.h', 'include/nonocheck.h']
    are_those(folder, {path: path.split('/')[-1] for path in paths}, system.made)
    pair = [
        folder / 'share/doc/nonobench/examples' / f'diagonal.{kind}' for kind in ('ppm', 'ppm.cert')
    ]
    assert system.run(folder / 'bin/nonobench', 'check', *pair) == YES
    run = clean([folder / 'install', '--prefix', tmp_path / 'prefix'])
    assert run.status == 1 and b'install: the program does not run here: ' in run.said, run
    assert not (tmp_path / 'prefix' / 'bin').exists()


@ON_LINUX
def test_deb(system, made, tmp_path):
    needs('dpkg-deb')
    package = named(made, 'nonobench_*_arm64.deb')
    passes(['dpkg-deb', '-x', package, tmp_path])
    are_those(
        tmp_path,
        {
            'usr/bin/nonobench': 'nonobench',
            'usr/lib/nonobench/nonobench/libnonobench.so': 'libnonobench.so',
        },
        system.made,
    )
    assert passes(['dpkg-deb', '-f', package, 'Architecture', 'Depends']).splitlines() == [
        'Architecture: arm64',
        'Depends: libc6 (>= 2.17), python3 (>= 3.9)',
    ]


@ON_LINUX
def test_wheel(system, made, tmp_path):
    """Its library is called from C."""
    package = named(made, 'nonobench-*.musllinux_1_1_aarch64.whl')
    passes([sys.executable, '-m', 'zipfile', '-e', package, tmp_path])
    are_those(tmp_path, {'nonobench/libnonobench.so': 'libnonobench.so'}, system.made)
    [about] = tmp_path.glob('nonobench-*.dist-info/WHEEL')
    assert 'Tag: py3-none-manylinux_2_17_aarch64\n' in about.read_text()
    folder = tmp_path / 'nonobench'
    library = shutil.copy(folder / 'libnonobench.so', folder / 'libnonobench.so.0')
    program = linked(system, folder, ROOT / 'c' / 'example.c', library)
    assert (
        system.run(program, *(EXAMPLES / f'diagonal.{kind}' for kind in ('ppm', 'ppm.cert'))) == FIT
    )


@ON_LINUX
def test_wheel_in_python(system, made, tmp_path):
    """Debian's Python for arm64, below the folder ARM64_ROOT."""
    root = os.environ.get('ARM64_ROOT')
    if not root:
        pytest.skip('there is no Python for arm64, which a folder ARM64_ROOT has')
    passes([sys.executable, '-m', 'zipfile', '-e', named(made, '*_aarch64.whl'), tmp_path])
    shutil.copy(ROOT / 'tests' / 'packages' / 'trials' / 'ask.py', tmp_path)
    pair = [EXAMPLES / f'given.{kind}' for kind in ('ppm', 'ppm.cert')]
    alone = ['qemu-aarch64', '-L', root, '-U', 'NONOBENCH_LIBRARY', '-U', 'PYTHONPATH']
    python = [*alone, f'{root}/usr/bin/python3.11', tmp_path / 'ask.py', *pair]
    assert ended(python) == Ended(1, b'refused: certificate UnpublishedGiven at line 2\n', b'')
    assert ended([*python, '1,1']) == Ended(0, b'certificate accepted, givens 1\n', b'')


@ON_WINDOWS
def test_archive_for_windows(system, made, tmp_path):
    """The commands of its README, in the Command Prompt of its folder; MinGW's compiler is that of
    this machine."""
    package = named(made, 'nonobench-*-windows-x86_64.zip')
    passes([sys.executable, '-m', 'zipfile', '-e', package, tmp_path])
    folder = tmp_path / package.stem
    paths = ['nonobench.exe']
    for name in ('nonobench', 'nonocheck'):
        paths += [f'c/{name}.dll', f'c/lib{name}.a', f'c/lib{name}.dll.a', f'c/{name}.h']
    are_those(folder, {path: path.split('/')[-1] for path in paths}, system.made)
    commands = [
        line.strip()
        for line in (folder / 'README.txt').read_text().splitlines()
        if line.startswith('    ')
    ]
    [build] = [command for command in commands if command.startswith('gcc ')]
    passes([system.compiler, *build.replace('\\', '/').split()[1:]], cwd=folder)
    runs = system.launch(
        [(f'cmd /d /c {command}', '-', '', '') for command in commands if command != build], folder
    )
    assert [(run.status, run.said) for run in runs] == [(0, b'')] * 5, runs
    first = [run.wrote.split(b'.')[0].replace(b'\r\n', b'\n').strip() for run in runs]
    fit = FIT.wrote.strip()
    assert first == [
        YES.wrote.strip(),
        b'',
        b'Design multicolour nonograms with one solution',
        fit,
        fit,
    ]
    assert (folder / 'heart.ppm.cert').read_bytes().startswith(b'nono')
