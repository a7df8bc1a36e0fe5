"""The libraries for C: their tests, also under valgrind, the example, the headers in C++, and what
programs that are linked with them ask for."""

import os
import re
import shutil
import subprocess

import pytest
from tried import CASES, EXAMPLES, ROOT, calls_of, ended, needs, needs_file, passes

COMPILE = ('cc', '-std=c11', '-Wall', '-Wextra', '-Werror', '-O1', '-g', f'-I{ROOT}/c')
# The version of the release that is tried, where the header's is later.
TRIED = [f'-DTRIED="{os.environ["TRIED"]}"'] if 'TRIED' in os.environ else []
CROSS = 'P3\n2 2\n1\n0 0 0 1 1 1\n1 1 1 0 0 0\n'
# Certificates with lemmas (tests/cases/published.case).
DIAGONAL_LEMMAS = (
    'nonolemma 1\npart 1 1 a\nline r 1\ndead c 2\nline r 1\nline c 1\nline r 2\ndone\n'
)
GIVEN_LEMMAS = 'nonolemma 1\ngiven 1 1\nline r 1\nline c 1\nline r 2\ndone\n'
ALL_GIVEN = 'given 1 1\ngiven 1 2\ngiven 2 1\ngiven 2 2\ndone\n'
MEBIBYTE = 1 << 20
USAGE = 'usage: example PICTURE CERTIFICATE [ROW,COLUMN ..]'
# By hand, as in tests/cases/fit.txt: the first has one solution, the second with its given, and the
# third has a given too many.
DIAGONAL = (0, 'unique\nsize 2 2\ncolours 3\ngivens 0\nopen 0\ngrade easy 1 4 3 0 0\nfit')
GIVEN = (0, 'unique\nsize 2 2\ncolours 2\ngivens 1\nopen 0\ngrade easy 1 4 2 0 0\nfit')
SPARE = (
    1,
    'unique\nsize 2 2\ncolours 2\ngivens 2\nopen 0\ngrade easy 1 2 1 0 0\nflaw given 1 1\nunfit',
)


def refused(why):
    return 1, f'refused: {why}'


def unpublished(line):
    return refused(f'certificate UnpublishedGiven at line {line}')


@pytest.fixture(scope='session')
def archive(library):
    return needs_file(library.with_suffix('.a'), 'c/build')


@pytest.fixture(scope='session')
def test_program(archive, tmp_path_factory):
    needs('cc')
    program = tmp_path_factory.mktemp('c') / 'test'
    passes([*COMPILE, *TRIED, ROOT / 'c' / 'test.c', archive, '-lpthread', '-o', program])
    return program


@pytest.mark.since('0.8.0')
@pytest.mark.compiler
def test_c(test_program):
    passes([test_program, CASES])


@pytest.mark.since('0.8.0')
@pytest.mark.compiler
@pytest.mark.parametrize('kind', ['a', 'so'])
def test_checker(library, kind, tmp_path):
    needs('cc')
    checker = needs_file(library.with_name(f'libnonocheck.{kind}'), 'c/build')
    words = [
        ROOT / 'c' / 'check_test.c',
        checker,
        f'-Wl,-rpath,{checker.parent}',
        '-o',
        tmp_path / 'check_test',
    ]
    passes([*COMPILE, *TRIED, *words])
    passes([tmp_path / 'check_test', CASES])


@pytest.mark.since('0.8.0')
@pytest.mark.all
@pytest.mark.emulator
@pytest.mark.parametrize(
    'words',
    [('-q', '--leak-check=full', '100'), ('-q', '--tool=helgrind', '50')],
    ids=('memcheck', 'helgrind'),
)
def test_c_under_valgrind(test_program, words):
    needs('valgrind')
    passes(['valgrind', *words[:-1], '--error-exitcode=9', test_program, CASES, words[-1]])


@pytest.mark.compiler
@pytest.mark.parametrize('name', ['nonobench.h', 'nonocheck.h'])
def test_header_in_cpp(name):
    needs('c++')
    passes(
        [
            'c++',
            '-std=c++11',
            '-Wall',
            '-Wextra',
            '-Werror',
            '-fsyntax-only',
            '-x',
            'c++',
            ROOT / 'c' / name,
        ]
    )


def files():
    """The files by their names that are right, wrong and long."""
    diagonal, cert = (EXAMPLES / 'diagonal.ppm').read_text(), (
        EXAMPLES / 'diagonal.ppm.cert'
    ).read_text()
    blank = diagonal + ' ' * MEBIBYTE
    most = diagonal + ' ' * (16 * MEBIBYTE - len(diagonal))
    return {
        'diagonal.ppm': diagonal,
        'diagonal.ppm.cert': cert,
        'given.ppm': (EXAMPLES / 'given.ppm').read_text(),
        'given.ppm.cert': (EXAMPLES / 'given.ppm.cert').read_text(),
        'cross.ppm': CROSS,
        'cross.cert': f'nonocert 2\n{ALL_GIVEN}',
        'lemmas.cert': f'nonolemma 2\n{ALL_GIVEN}',
        'cut.cert': 'nonolemma',
        'diagonal.lemmas': DIAGONAL_LEMMAS,
        'given.lemmas': GIVEN_LEMMAS,
        'blank.ppm': blank,
        'more.ppm': f'{blank}99 9 9\n',
        'more.cert': cert + ' ' * MEBIBYTE,
        'most.ppm': most,
        'longer.ppm': f'{most}\n',
    }


# What the example is called with, its status and what it prints or says. What stands behind a MiB
# is read too.
CALLS = {
    'diagonal.ppm diagonal.ppm.cert': DIAGONAL,
    'given.ppm given.ppm.cert 1,1': GIVEN,
    'given.ppm given.ppm.cert': unpublished(2),
    'cross.ppm cross.cert': unpublished(2),
    'cross.ppm cross.cert 1,2 1,1 2,2': unpublished(4),
    'given.ppm diagonal.ppm.cert': refused('certificate NotDead at line 5'),
    'diagonal.ppm diagonal.lemmas': DIAGONAL,
    'given.ppm given.lemmas 2,2 1,1': SPARE,
    'given.ppm given.lemmas': unpublished(2),
    'given.ppm given.lemmas 1,1 1,3': refused('givens Place at line 2'),
    'cross.ppm lemmas.cert 1,2 1,1 2,2': unpublished(4),
    'given.ppm diagonal.lemmas': refused('certificate NotDead at line 4'),
    'diagonal.ppm cut.cert': refused('certificate NotCert at line 1'),
    'blank.ppm diagonal.ppm.cert': DIAGONAL,
    'more.ppm diagonal.ppm.cert': refused(
        f'ppm TrailingToken at byte {len((EXAMPLES / "diagonal.ppm").read_bytes()) + MEBIBYTE}'
    ),
    'diagonal.ppm more.cert': refused('certificate BadLine at line 10'),
    'most.ppm diagonal.ppm.cert': DIAGONAL,
    'longer.ppm diagonal.ppm.cert': refused('input too long'),
    'diagonal.ppm longer.ppm': refused('input too long'),
    'none.ppm diagonal.ppm.cert': (3, 'example: none.ppm: No such file or directory'),
    'diagonal.ppm none.cert': (3, 'example: none.cert: No such file or directory'),
    'hostile.so diagonal.ppm.cert': (3, 'example: hostile.so: Is a directory'),
    **{
        f'given.ppm given.ppm.cert {place}': (2, USAGE)
        for place in (
            '1',
            '1,',
            '1,1x',
            'x,1',
            '1,-',
            '4294967297,1',
            '-4294967295,1',
            '+1,1',
            '0,1',
        )
    },
    'given.ppm': (2, USAGE),
}


@pytest.mark.since('0.8.0')
@pytest.mark.compiler
def test_example(archive, tmp_path):
    """It runs in a folder that has things by the names of libraries."""
    needs('cc')
    example = tmp_path / 'example'
    passes([*COMPILE, ROOT / 'c' / 'example.c', archive, '-o', example])
    here = tmp_path / 'here'
    for name in ('hostile.so', 'libc.so.6'):
        (here / name).mkdir(parents=True)
    for name, text in {
        **files(),
        'libnonobench.so': 'no library\n',
        'nonobench.h': 'no library\n',
    }.items():
        (here / name).write_text(text)
    for words, (status, line) in CALLS.items():
        run = ended([example, *words.split()], cwd=here)
        said = re.sub(r'\n$', '', (run.wrote + run.said).decode())
        assert (run.status, said) == (status, line), words
    with open('/dev/full', 'wb') as full:
        words = [example, 'diagonal.ppm', 'diagonal.ppm.cert']
        assert (
            subprocess.run(
                words, cwd=here, stdout=full, stderr=subprocess.PIPE, check=False
            ).returncode
            == 3
        )


# ---- names and versions


@pytest.mark.since('0.8.0')
@pytest.mark.compiler
@pytest.mark.parametrize('name', ['nonobench', 'nonocheck'])
def test_what_is_given_out(library, name):
    """The calls of the header, and nothing else, also by the static library."""
    needs('nm', 'readelf')
    shared = needs_file(library.with_name(f'lib{name}.so'), 'c/build')
    soname = re.search(r'soname: \[(.*)\]', passes(['readelf', '-d', shared]))[1]
    assert soname == f'lib{name}.so.0'
    version = re.search(r'_VERSION "(.*)"', (ROOT / 'c' / f'{name}.h').read_text())[1]
    assert shared.resolve() == shared.with_name(soname).resolve()
    assert shared.resolve().name == f'lib{name}.so.{version}'
    calls = calls_of(name)
    listed = passes(['nm', '-D', '--defined-only', '--format=posix', shared]).splitlines()
    node = f'{name.upper()}_0'
    given = {line.split()[0] for line in listed}
    assert calls and given == {f'{call}@@{node}' for call in calls} | {node}
    static = passes(['nm', '-g', '--defined-only', '--format=posix', shared.with_suffix('.a')])
    assert {line.split()[0] for line in static.splitlines()[1:]} == calls


@pytest.mark.since('0.8.0')
@pytest.mark.compiler
def test_both_whole(archive, tmp_path):
    """All of both static libraries goes into one program."""
    needs('cc')
    both = [archive, needs_file(archive.with_name('libnonocheck.a'), 'c/build')]
    words = ['-Wl,--whole-archive', *both, '-Wl,--no-whole-archive', '-o', tmp_path / 'both']
    passes([*COMPILE, ROOT / 'c' / 'example.c', *words])


@pytest.mark.since('0.8.0')
@pytest.mark.compiler
def test_another_version(library, tmp_path):
    """A program runs with a later library of the same name, and says what an earlier one lacks."""
    needs('cc')
    program, here = tmp_path / 'example', tmp_path / 'libnonobench.so.0'
    passes([*COMPILE, ROOT / 'c' / 'example.c', library, '-o', program])
    pair = [EXAMPLES / 'diagonal.ppm', EXAMPLES / 'diagonal.ppm.cert']

    def run():
        return ended([program, *pair], env={'LD_LIBRARY_PATH': tmp_path})

    assert run().status == 127
    shutil.copy(library, tmp_path / 'libnonobench.so.0.8.1')
    here.symlink_to('libnonobench.so.0.8.1')
    assert (run().status, run().wrote.decode().strip()) == DIAGONAL
    here.unlink()
    (tmp_path / 'earlier.c').write_text('void nonobench_earlier(void) {}')
    (tmp_path / 'names').write_text('NONOBENCH_0 { global: nonobench_*; };')
    flags = [f'-Wl,--version-script,{tmp_path}/names', '-Wl,-soname,libnonobench.so.0']
    passes(['cc', '-shared', '-fPIC', *flags, tmp_path / 'earlier.c', '-o', here])
    assert run().status == 127 and b'nonobench_assess_puzzle, version NONOBENCH_0' in run().said
