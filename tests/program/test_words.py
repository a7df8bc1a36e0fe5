"""The words of the program: files, options, help and what is refused; and what goes from one
command to the next."""

import re

import pytest
from test_cases import put
from tried import EXAMPLES, Ended, ended

PIXEL = 'P3\n1 1\n255\n0 0 0\n'
THREE = 'P3\n2 2\n255\n0 0 0\n0 0 0\n0 0 0\n255 255 255\n'
# A background of three different samples: read in another order, it would be the colour of the last
# two cells, whose certificate is another.
TURNED = 'P3\n3 1\n255\n10 20 30\n30 20 10\n30 20 10\n'
TURNED_CERT = 'nonocert 1\nline r 1\nline c 3\nline r 1\ndone\n'
SQUARE = 'width 2\nheight 2\nrows\n1\n1\ncolumns\n1\n1\n'
YES = b'certificate accepted\n'
NO_PICTURE = b'nonobench: ppm NotP3 at byte 0\n'
NO_BACKGROUND = b'nonobench: background must be R,G,B\n'
UNREAD = b'nonobench: read failed\n'
TOO_LONG = b'nonobench: input too long\n'


def test_certificates_of_the_examples(program):
    for name, wrote in (('diagonal', YES), ('given', b'certificate accepted, givens 1\n')):
        assert ended(
            [program.path, 'check', EXAMPLES / f'{name}.ppm', EXAMPLES / f'{name}.ppm.cert']
        ) == Ended(0, wrote, b'')


def test_clues_of_the_heart(program):
    run = ended([program.path], (EXAMPLES / 'heart.ppm').read_bytes())
    assert (run.status, run.said) == (0, b'')
    assert run.wrote.startswith(
        b'r 1: 2a 2a\nr 2: 1a 1b 2a 4a\nr 3: 1a 2b 6a\nr 4: 1a 1b 7a\nr 5: 7a\nr 6: 5a\nr 7: 3a\nr'
        b' 8: 1a\nc 1: 3a\nc 2: 1a 3b 1a\n'
    )


# The command, the picture, the certificate (or None), further words, and how it ends.
CHECKS = {
    'no picture to prove': ('prove', 'P6', None, [], Ended(1, b'', NO_PICTURE)),
    'a background of a proof that is none': (
        'prove',
        PIXEL,
        None,
        ['--background', '1,2'],
        Ended(2, b'', NO_BACKGROUND),
    ),
    'no picture and no certificate': ('check', 'P6', '', [], Ended(1, b'', NO_PICTURE)),
    'a background': (
        'check',
        PIXEL,
        'nonocert 1\nline r 1\ndone\n',
        ['--background', '0,00,0'],
        Ended(0, YES, b''),
    ),
    'a background over the maxval': (
        'check',
        PIXEL,
        '',
        ['--background', '0,256,0'],
        Ended(1, b'', b'nonobench: ppm SampleOver at byte 7\n'),
    ),
    'a background of three samples': (
        'check',
        TURNED,
        TURNED_CERT,
        ['--background', '10,20,30'],
        Ended(0, YES, b''),
    ),
    'its colours turned round': (
        'check',
        TURNED,
        TURNED_CERT,
        ['--background', '30,20,10'],
        Ended(1, b'', b'nonobench: certificate NotDone at line 5\n'),
    ),
    **{
        f'the background {word!r}': (
            'check',
            PIXEL,
            '',
            ['--background', word],
            Ended(2, b'', NO_BACKGROUND),
        )
        for word in ('1,2', '1,2,3,4', '1,2,x', '0,0,65536', '0,0,000001', '1, 2,3', '')
    },
}


@pytest.mark.parametrize('name', CHECKS)
def test_check(program, name, tmp_path):
    command, picture, cert, words, wanted = CHECKS[name]
    files = put(tmp_path, picture=picture, cert=cert or '')
    assert ended([program.path, command, *files[: 1 if cert is None else 2], *words]) == wanted


# Each form by both names: the texts are of a black cell alone, which is the background.
FORMS = [
    'nonocert 1\nline r 1\ndone\n',
    'nonocert 2\nline r 1\ndone',
    'nonolemma 1\nline c 1\ndone\n',
    'nonolemma 2\nline r1 c1\ndone\n',
]


@pytest.mark.parametrize('cert', FORMS)
def test_each_form(program, cert, tmp_path):
    files = put(tmp_path, picture=PIXEL, cert=cert)
    assert ended([program.path, 'check', *files, '--background', '0,0,0']) == Ended(0, YES, b'')


def test_background_between_the_files(program, tmp_path):
    picture, cert = put(tmp_path, picture=PIXEL, cert='nonocert 1\nline r 1\ndone\n')
    assert ended([program.path, 'check', picture, '--background', '0,0,0', cert]) == Ended(
        0, YES, b''
    )


# Formats of a certificate that is made, and its first line.
FORMATS = {(): b'nonolemma 2', ('--format', '2'): b'nonolemma 2', ('--format=1',): b'nonolemma 1'}


@pytest.mark.parametrize('words', FORMATS)
@pytest.mark.parametrize('background', [(), ('--background', '0,0,0')])
def test_formats_of_certificates(program, words, background, tmp_path):
    """What is printed is accepted, with the same background. In the older format each line has one
    step."""
    [picture] = put(tmp_path, picture=THREE)
    run = ended([program.path, 'prove', *words, picture, *background])
    assert (run.status, run.said) == (0, b'')
    first, *steps, done = run.wrote.splitlines()
    assert (first, done) == (FORMATS[words], b'done')
    if first == b'nonolemma 1':
        assert all(
            re.fullmatch(rb'(line|dead) [rc] \d|part \d \d [.a]|done', step) for step in steps
        )
    assert ended(
        [program.path, 'check', picture, *put(tmp_path, cert=run.wrote), *background]
    ) == Ended(0, YES, b'')


def test_format_that_is_none(program):
    run = ended([program.path, 'prove', 'picture', '--format', '3'])
    assert (run.status, run.wrote) == (2, b'')


def test_files_that_are_not_there(program, tmp_path):
    """The first is read before the second, and both before either is looked at."""
    [picture] = put(tmp_path, picture='P6')
    none = tmp_path / 'none'
    for words in ((none, EXAMPLES / 'diagonal.ppm.cert'), (picture, none), (tmp_path, picture)):
        assert ended([program.path, 'check', *words]) == Ended(3, b'', UNREAD), words


def test_files_that_are_too_long(program, tmp_path):
    """A check reads its first file whole before its second."""
    long, picture = put(tmp_path, long=b'P3' + b' ' * 16777215, picture=PIXEL)
    none = tmp_path / 'none'
    assert ended([program.path, 'work', long]) == Ended(1, b'', TOO_LONG)
    assert ended([program.path, 'check', long, none]) == Ended(1, b'', TOO_LONG)
    assert ended([program.path, 'check', none, long]) == Ended(3, b'', UNREAD)
    assert ended([program.path, 'check', picture, long]) == Ended(1, b'', TOO_LONG)


def test_files_of_givens_that_are_not_read(program, tmp_path):
    """All three are read before any is looked at, the givens last."""
    picture, cert, long = put(tmp_path, picture='P6', cert='x', long=b'\n' * 16777217)
    none = tmp_path / 'none'
    assert ended([program.path, 'check', picture, cert, '--givens', none]) == Ended(3, b'', UNREAD)
    assert ended([program.path, 'check', picture, cert, '--givens', long]) == Ended(
        1, b'', TOO_LONG
    )
    assert ended([program.path, 'check', picture, none, '--givens', long]) == Ended(3, b'', UNREAD)
    assert ended([program.path, 'check', long, none, '--givens', none]) == Ended(1, b'', TOO_LONG)


def deep(edits):
    """So many edits and one more, then an undo for each."""
    paints = [f'paint 1 1 {"a" if edit % 2 else "."}\n' for edit in range(edits + 1)]
    return (
        ''.join(paints) + 'undo\n' * (edits + 1),
        'ok\n' * (2 * edits + 1) + 'refused: UndoEmpty\n',
    )


# A session: the file, the lines, further words, and how it ends.
WORK = {
    'a refused command': (
        THREE,
        'undo\nverdict',
        [],
        Ended(0, b'refused: UndoEmpty\nunique\n', b''),
    ),
    'no command': (PIXEL, '', [], Ended(0, b'', b'')),
    'a background': (
        PIXEL,
        'clues\n',
        ['--background', '0,0,0'],
        Ended(0, b'r 1: 0\nc 1: 0\n', b''),
    ),
    'a short history': (
        THREE,
        'paint 1 1 .\npaint 1 1 a\nundo\nundo\n',
        ['--history', '1'],
        Ended(0, b'ok\nok\nok\nrefused: UndoEmpty\n', b''),
    ),
    'a background of three samples': (
        TURNED,
        'clues\n',
        ['--background', '10,20,30'],
        Ended(0, b'r 1: 2a\nc 1: 0\nc 2: 1a\nc 3: 1a\n', b''),
    ),
    'a puzzle as a picture': (SQUARE, 'clues\n', [], Ended(1, b'', NO_PICTURE)),
    'a bad background before a puzzle': (
        SQUARE,
        '',
        ['--background', '1,2', '--format', 'non'],
        Ended(2, b'', NO_BACKGROUND),
    ),
    'a background of a puzzle': (
        SQUARE,
        '',
        ['--format', 'non', '--background', '1,2,3'],
        Ended(2, b'', b'nonobench: background goes with ppm\n'),
    ),
}
# A hundred edits can be undone where no number is given.
for edits, words in (
    (100, []),
    (1000, ['--history=1000']),
    (5, ['--format', 'ppm', '--history', '05']),
):
    WORK[f'a history of {edits}'] = (
        PIXEL,
        deep(edits)[0],
        words,
        Ended(0, deep(edits)[1].encode(), b''),
    )


@pytest.mark.parametrize('name', WORK)
def test_work(program, name, tmp_path):
    text, lines, words, wanted = WORK[name]
    assert ended([program.path, 'work', *put(tmp_path, file=text), *words], lines) == wanted


def test_what_a_session_printed_is_accepted(program, tmp_path):
    """On this background a colour is added and a cell painted with it, two rows are swapped, and a
    cell is a given."""
    [file] = put(tmp_path, file='P3\n2 2\n255\n10 20 30\n30 20 10\n30 20 10\n10 20 30\n')
    worked = 'colour add 9 8 7\npaint 2 2 b\npaint 2 2 .\nswap row 1 2\npin 1 1\n'
    background = ['--background', '10,20,30']
    written = []
    for command in ('write ppm', 'certify'):
        run = ended([program.path, 'work', file, *background], f'{worked}{command}\n')
        assert run.wrote.startswith(b'ok\n' * 5)
        written.append(run.wrote.removeprefix(b'ok\n' * 5))
    pair = put(tmp_path, picture=written[0], cert=written[1])
    assert ended([program.path, 'check', *pair, *background]) == Ended(
        0, b'certificate accepted, givens 1\n', b''
    )


def test_path_with_a_blank_behind_other_words(program, tmp_path):
    folder = tmp_path / 'a folder'
    folder.mkdir()
    words = ['--background', '0,0,0', '--history', '1', *put(folder, file=THREE)]
    assert ended([program.path, 'work', *words], 'clues\n') == Ended(
        0, b'r 1: 0\nr 2: 1a\nc 1: 0\nc 2: 1a\n', b''
    )


def test_words_before_files(program, tmp_path):
    none = tmp_path / 'none'
    assert ended([program.path, 'work', none]) == Ended(3, b'', UNREAD)
    assert ended([program.path, 'work', none, '--format', 'non', '--background', '1,2,3']) == Ended(
        2, b'', b'nonobench: background goes with ppm\n'
    )
    assert ended([program.path, 'work', b'\xff']) == Ended(
        2, b'', b'nonobench: a word is not UTF-8\n'
    )


# Words that are not taken, with a line of what is said.
REFUSED = {
    **{
        f'a history of {depth}': (
            ['work', 'one', '--history', depth],
            f"error: invalid value '{depth}' for '--history <N>': {depth} is not in 1..=1000",
        )
        for depth in ('0', '1001', '65537')
    },
    'a history that is no number': (
        ['work', 'one', '--history', 'x'],
        "error: invalid value 'x' for '--history <N>': invalid digit found in string",
    ),
    'an empty history': (
        ['work', 'one', '--history', ''],
        "error: invalid value '' for '--history <N>': cannot parse integer from empty string",
    ),
    'a history below none': (
        ['work', 'one', '--history', '-1'],
        "error: unexpected argument '-1' found",
    ),
    'another format': (
        ['work', 'one', '--format', 'gif'],
        "error: invalid value 'gif' for '--format <FORMAT>'",
    ),
    'no file is named': (['work'], 'error: the following required arguments were not provided:'),
    'an unknown word': (['clues'], "error: unrecognized subcommand 'clues'"),
    'an empty word': ([''], "error: unrecognized subcommand ''"),
    'no word behind the dashes': (
        ['--'],
        "error: 'nonobench' requires a subcommand but one was not provided",
    ),
    'a word is missing': (
        ['check', 'one'],
        'error: the following required arguments were not provided:',
    ),
    'a word too many': (
        ['check', 'one', 'two', 'three'],
        "error: unexpected argument 'three' found",
    ),
}


@pytest.mark.parametrize('name', REFUSED)
def test_refused_words(program, name):
    words, line = REFUSED[name]
    run = ended([program.path, *words])
    if program.in_node:
        assert (run.status, run.wrote) == (2, b'')
        assert re.match(r'error: .', run.said.decode())
    else:
        assert run.status == 2
        assert line in run.said.decode().split('\n')


HELP = {
    'help': (['--help'], 'Commands:'),
    'help on the work': (['work', '--help'], 'Example: echo verdict | nonobench work heart.ppm'),
    'help on the check': (['check', '--help'], 'Example: nonobench check heart.ppm heart.ppm.cert'),
}


@pytest.mark.since('0.8.0')
@pytest.mark.parametrize('name', HELP)
def test_help(program, name):
    words, line = HELP[name]
    run = ended([program.path, *words])
    assert run.status == 0
    assert line in run.wrote.decode().split('\n')


# Words that ask for help or the version, and for something else too. A file of that name is there.
BESIDE = [
    *(
        [command, *files]
        for command in ('work', 'prove', 'assess', 'check')
        for files in (['-h.ppm'], ['-h', 'x.ppm'], ['x.ppm', '-h'], ['x.ppm', '--help'])
    ),
    ['check', 'x.ppm', '-h.cert'],
    ['assess', 'x.ppm', '-h.ppm', 'x.ppm'],
    ['assess', '--format', 'ppm', '-h'],
    ['-h', 'assess'],
    ['-h', 'x.ppm'],
    ['--version', 'assess', 'x.ppm'],
    ['-V', 'x.ppm'],
]


@pytest.mark.since('0.8.0')
@pytest.mark.parametrize('words', BESIDE, ids=' '.join)
def test_help_beside_other_words(program, words, tmp_path):
    """No puzzle passes because a file has such a name."""
    for name in ('x.ppm', '-h.ppm', '-h.cert'):
        (tmp_path / name).write_text(THREE)
    assert ended([program.path, *words], cwd=tmp_path) == Ended(
        2,
        b'',
        b'nonobench: help and version go alone; a name that begins with - needs ./ or --\n',
    )


@pytest.mark.since('0.8.0')
@pytest.mark.parametrize('words', [['./-h.ppm'], ['--', '-h.ppm']])
def test_names_that_begin_with_a_hyphen(program, words, tmp_path):
    (tmp_path / '-h.ppm').write_text(THREE)
    run = ended([program.path, 'assess', *words], cwd=tmp_path)
    assert (run.status, run.said, run.wrote[:7]) == (0, b'', b'unique\n')


@pytest.mark.since('0.8.0')
@pytest.mark.parametrize(
    'words',
    [
        ['-h'],
        ['--help'],
        ['help'],
        *(
            [command, flag]
            for command in ('work', 'check', 'prove', 'assess')
            for flag in ('-h', '--help')
        ),
        *(['help', command] for command in ('work', 'check', 'prove', 'assess')),
    ],
    ids=' '.join,
)
def test_help_that_is_asked_for_alone(program, words):
    run = ended([program.path, *words])
    assert (run.status, run.said) == (0, b'')
    assert b'Usage: nonobench' in run.wrote


def test_version(program):
    """Any version, so that a release's program can be tried; tests/documents compares a built
    program with the sources."""
    run = ended([program.path, '--version'])
    assert run.status == 0
    assert re.fullmatch(r'nonobench [0-9]+\.[0-9]+\.[0-9]+\n', run.wrote.decode())


def test_each_front_of_a_picture_is_refused_where_it_ends(program):
    edited = 'P3\n# made by an editor\n1 1\n255\n0\n0\n0'
    for size in range(len(edited)):
        fault = 'NotP3 at byte 0' if size < 2 else f'Truncated at byte {size}'
        assert ended([program.path], edited[:size]) == Ended(
            1, b'', f'nonobench: ppm {fault}\n'.encode()
        ), size
