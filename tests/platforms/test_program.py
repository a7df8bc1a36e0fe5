"""The program for other systems, as platforms/build makes it of the module of the crate nonobench:
cases and sessions, words and paths in any script, streams, and on Windows what a shell there leaves
to a program."""

import shutil
import sys
from pathlib import Path

import pytest
from systems import ON_EACH, ON_LINUX, ON_WINDOWS
from tried import EXAMPLES, ROOT, Ended, ended

sys.path.append(str(ROOT / 'tests' / 'program'))

from test_cases import CALLS, answered, expected, rows  # noqa: E402
from test_sessions import words_of  # noqa: E402

pytestmark = [pytest.mark.toolchain, pytest.mark.compiler, pytest.mark.emulator]
PIXEL = b'P3\n1 1\n255\n0 0 0\n'
NO_PICTURE = Ended(1, b'', b'nonobench: ppm NotP3 at byte 0\n')
NO_READ = Ended(3, b'', b'nonobench: read failed\n')
NO_WRITE = Ended(3, b'', b'nonobench: write failed\n')
NO_TEXT = Ended(2, b'', b'nonobench: a word is not UTF-8\n')
CLUES = Ended(0, b'r 1: 1a\nc 1: 1a\n', b'')
YES = Ended(0, b'certificate accepted\n', b'')
# Names in scripts that no old character set of Windows has together, one of them of letters beyond
# 16 bits.
NAMES = ('bödy.ppm', 'картинка.ppm', '日本.ppm', '😀𝔻.ppm', "a b 'c' & (d).ppm")


@ON_EACH
@pytest.mark.parametrize('kind', CALLS)
def test_cases(system, kind, tmp_path):
    asked = [row.values for row in rows(kind)]
    assert asked
    calls = [CALLS[kind](tmp_path / f'case{at}', text) for at, (text, _) in enumerate(asked)]
    within = [
        (
            [
                word.relative_to(tmp_path).as_posix() if isinstance(word, Path) else word
                for word in words
            ],
            text,
        )
        for words, text in calls
    ]
    for run, (_, answer) in zip(system.run_each(within, tmp_path), asked, strict=True):
        answered(run, expected(kind, answer))


@ON_EACH
def test_sessions(system, build, tmp_path):
    """They print what the program for x86-64 prints, up to the last byte."""
    runs = []
    for folder in (EXAMPLES, ROOT / 'tests' / 'sessions'):
        for file in sorted(folder.glob('*.session')):
            words, background = words_of(file)
            for path in file.parent.glob(f'{file.stem}.*'):
                shutil.copy(path, tmp_path)
            words = [word.name if hasattr(word, 'name') else word for word in words]
            runs.append((['work', *words, *background], file.read_bytes()))
    wanted = [
        ended([build.program('nonobench'), *words], text, cwd=tmp_path) for words, text in runs
    ]
    assert {run.status for run in wanted} == {0}
    assert system.run_each(runs, tmp_path) == wanted


@ON_EACH
def test_what_is_proved_is_accepted(system, tmp_path):
    for name in ('heart', 'diagonal'):
        shutil.copy(EXAMPLES / f'{name}.ppm', tmp_path)
    [proved, other] = system.run_each(
        [(['prove', 'heart.ppm'], b''), (['prove', 'diagonal.ppm'], b'')], tmp_path
    )
    assert proved.status == 0
    (tmp_path / 'cert').write_bytes(proved.wrote)
    again = [
        (['check', 'heart.ppm', 'cert'], b''),
        (['check', 'heart.ppm', 'cert', '--background', '1,2'], b''),
    ]
    assert system.run_each(again, tmp_path) == [
        YES,
        Ended(2, b'', b'nonobench: background must be R,G,B\n'),
    ]
    assert other.status in (0, 1)


@ON_EACH
def test_names_in_any_script(system, tmp_path):
    for name in NAMES:
        (tmp_path / name).write_bytes(PIXEL)
    runs = system.run_each([(['work', name], b'clues\n') for name in NAMES], tmp_path)
    assert runs == [CLUES] * len(NAMES)


@ON_EACH
def test_files_and_streams(system, tmp_path):
    """A file that is not there, a folder, no word, the longest input and a byte more."""
    longest = b'P3' + b' ' * 16777214
    runs = [
        (['work', 'none'], b''),
        (['work', '.'], b''),
        (['work', ''], b''),
        ([], longest),
        ([], longest + b' '),
    ]
    assert system.run_each(runs, tmp_path) == [
        NO_READ,
        NO_READ,
        NO_READ,
        Ended(1, b'', b'nonobench: ppm Truncated at byte 16777216\n'),
        Ended(1, b'', b'nonobench: input too long\n'),
    ]


@ON_EACH
def test_help_and_version(system, build, tmp_path):
    words = [['--version'], ['--help'], ['check', '--help'], [], ['jump']]
    wanted = [ended([build.program('nonobench'), *line]) for line in words]
    assert system.run_each([(line, b'') for line in words], tmp_path) == wanted


@ON_WINDOWS
def test_words_that_are_no_text_on_windows(system, tmp_path):
    """Half of a pair that stands alone, either one, and both in the wrong order; a whole pair is a
    letter."""
    (tmp_path / '😀').write_bytes(PIXEL)
    line = system.line(['work'])
    lines = [
        (f'{line} {word}', '-', '', '') for word in ('\ud83d', '\ude00', 'a\ude00\ud83d', '\ud83dx')
    ]
    assert system.launch(lines, tmp_path) == [NO_TEXT] * 4
    (tmp_path / '0.text').write_bytes(b'clues\n')
    assert system.launch([(f'{line} 😀', '', '', '')], tmp_path) == [CLUES]


@ON_WINDOWS
def test_streams_on_windows(system, tmp_path):
    (tmp_path / 'pixel').write_bytes(PIXEL)
    clues, session = system.line([]), system.line(['work', 'pixel'])
    (tmp_path / '5.text').write_bytes(b'clues\n')
    runs = system.launch(
        [
            (clues, '<pixel', '|', ''),
            (clues, '<pixel', '-', ''),
            (clues, '<pixel', '<pixel', ''),
            (clues, '-', '', ''),
            (clues, '|', '', ''),
            (session, '', '|', ''),
            (session, '|', '', ''),
        ],
        tmp_path,
    )
    assert runs == [NO_WRITE, NO_WRITE, NO_WRITE, NO_READ, NO_PICTURE, NO_WRITE, Ended(0, b'', b'')]


@ON_WINDOWS
def test_files_on_windows(system, tmp_path):
    """One that is locked, the null device, a path that is long, also as it is given in full, and
    one behind backslashes."""
    deep = '/'.join(['a' * 60] * 6)
    (tmp_path / deep).mkdir(parents=True)
    (tmp_path / deep / 'pixel').write_bytes(PIXEL)
    (tmp_path / 'locked').write_bytes(PIXEL)
    words = (
        ['work', f'{deep}/pixel'],
        ['work', system.inside(tmp_path / deep / 'pixel')],
        ['work', f'{deep}/pixel'.replace('/', '\\')],
    )
    lines = [
        (system.line(['work', 'locked']), '!locked', '', ''),
        (system.line(['work', 'NUL']), '-', '', ''),
    ]
    lines += [(system.line(line), '', '', '') for line in words]
    for at in range(2, 5):
        (tmp_path / f'{at}.text').write_bytes(b'clues\n')
    assert system.launch(lines, tmp_path) == [NO_READ, NO_PICTURE, CLUES, CLUES, CLUES]


@ON_WINDOWS
def test_marks_of_names_on_windows(system, tmp_path):
    """The program itself replaces * and ? by names of files."""
    for name in ('given.ppm', 'given.ppm.cert'):
        shutil.copy(EXAMPLES / name, tmp_path)
    words = ['check', '*.ppm', 'g?ven.ppm.cert'], ['check', 'none*', 'given.ppm.cert']
    runs = system.launch([(system.line(line), '-', '', '') for line in words], tmp_path)
    assert runs == [Ended(0, b'certificate accepted, givens 1\n', b''), NO_READ]


@ON_LINUX
def test_word_that_is_no_text_on_linux(system, tmp_path):
    assert system.run_each([(['work', b'\xff'], b'')], tmp_path) == [NO_TEXT]
