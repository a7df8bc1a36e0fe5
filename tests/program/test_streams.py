"""Streams that fail or end: no room, no output, nobody who reads, a folder as input, and the
longest inputs."""

import subprocess

import pytest
from tried import EXAMPLES, Ended, ended

PIXEL = b'P3\n1 1\n255\n0 0 0\n'
NO_READ = b'nonobench: read failed\n'
NO_WRITE = b'nonobench: write failed\n'
ALTERNATING = b'P3 120 120 1' + b' 0 0 0 1 1 1' * 7200


def in_shell(program, redirection, words=(), text=b'', cwd=None):
    """How the program ends with streams as a shell opens or closes them."""
    return ended(['sh', '-c', f'exec "$0" "$@" {redirection}', program.path, *words], text, cwd=cwd)


def native(program):
    if program.in_node:
        pytest.skip('node opens the null device in place of a closed stream')


# What is written where there is no room: the words that ask for it, and the input.
ROOMLESS = [
    ([], PIXEL),
    (['check', EXAMPLES / 'diagonal.ppm', EXAMPLES / 'diagonal.ppm.cert'], b''),
    (['work', EXAMPLES / 'diagonal.ppm'], b'clues\n'),
    *((words.split(), b'') for words in ('--help', '--version', 'work --help', 'check --help')),
]


@pytest.mark.parametrize(('words', 'text'), ROOMLESS)
def test_no_room(program, words, text):
    assert in_shell(program, '>/dev/full', words, text) == Ended(3, b'', NO_WRITE)


def test_no_output(program):
    native(program)
    assert in_shell(program, '>&-', text=PIXEL) == Ended(3, b'', NO_WRITE)


def test_a_folder_as_input(program, tmp_path):
    assert in_shell(program, '<.', cwd=tmp_path) == Ended(3, b'', NO_READ)


def test_no_input(program):
    native(program)
    assert in_shell(program, '<&-') == Ended(3, b'', NO_READ)


def test_what_cannot_be_said_leaves_the_status(program, tmp_path):
    assert in_shell(program, '2>&-') == Ended(1, b'', b'')
    assert in_shell(program, '2>/dev/full', [tmp_path / 'none', tmp_path / 'none']) == Ended(
        2, b'', b''
    )
    assert in_shell(program, '<. 2>/dev/full', cwd=tmp_path) == Ended(3, b'', b'')


def test_nobody_reads_on(program, tmp_path):
    (tmp_path / 'file').write_bytes(PIXEL)
    (tmp_path / 'lines').write_bytes(b'verdict\n' * 100000)
    with open(tmp_path / 'lines', 'rb') as lines:
        run = subprocess.Popen(
            [program.path, 'work', tmp_path / 'file'],
            stdin=lines,
            stdout=subprocess.PIPE,
            stderr=subprocess.PIPE,
        )
    first = run.stdout.readline()
    run.stdout.close()
    said = run.stderr.read()
    run.stderr.close()
    assert (run.wait(), first, said) == (3, b'unique\n', NO_WRITE)


def test_room_for_1024_bytes(program, tmp_path):
    """The file gets the first bytes of the text, as many as it has room for."""
    whole = ended([program.path], ALTERNATING)
    assert whole.status == 0
    words = ['bash', '-c', 'trap "" XFSZ; ulimit -f 1; exec "$0" >out', program.path]
    assert ended(words, ALTERNATING, cwd=tmp_path) == Ended(3, b'', NO_WRITE)
    assert (tmp_path / 'out').read_bytes() == whole.wrote[:1024]


def test_the_longest_input_and_one_byte_more(program):
    longest = b'P3' + b' ' * 16777214
    assert ended([program.path], longest) == Ended(
        1, b'', b'nonobench: ppm Truncated at byte 16777216\n'
    )
    assert ended([program.path], longest + b' ') == Ended(1, b'', b'nonobench: input too long\n')


def test_a_session_that_reads_a_folder(program, tmp_path):
    (tmp_path / 'file').write_bytes(PIXEL)
    assert in_shell(program, '<.', ['work', 'file'], cwd=tmp_path) == Ended(3, b'', NO_READ)


def test_more_bytes_than_a_session_may_make_reads(program, tmp_path):
    """A session ends after 1,048,576 reads, and each takes more than a byte where more are
    there."""
    (tmp_path / 'file').write_bytes(PIXEL)
    (tmp_path / 'lines').write_bytes(b'\n' * 1048577 + b'undo\n')
    with open(tmp_path / 'lines', 'rb') as lines:
        assert ended([program.path, 'work', tmp_path / 'file'], stdin=lines) == Ended(
            0, b'refused: UndoEmpty\n', b''
        )
