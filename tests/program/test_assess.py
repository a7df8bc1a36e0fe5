"""Assessments by the program: a puzzle as tests/cases/assess.case has it, several, and the files
beside one."""

import pytest
from test_cases import picture_of, printed, rows
from tried import Ended, ended

RING = 'unique\nsize 3 3\ncolours 2\ngivens 0\nopen 0\ngrade easy 1 3 1 0 0\nfit\n'
CROSS = 'ambiguous\n.a\na.\nsize 2 2\ncolours 2\ngivens 0\nopen 4\nunfit\n'
# One corner of the cross is given: row 1, row 2 in vain, column 1, column 2.
ONE_GIVEN = 'unique\nsize 2 2\ncolours 2\ngivens 1\nopen 0\ngrade easy 1 4 2 0 0\n'
# Both are: row 1 and row 2, and no column has an open cell.
TWO_GIVENS = 'unique\nsize 2 2\ncolours 2\ngivens 2\nopen 0\ngrade easy 1 2 1 0 0\n'
CERT = 'nonocert 2\ngiven 1 1\nline r 1\nline c 1\nline r 2\ndone\n'


@pytest.fixture
def folder(tmp_path):
    """A folder with puzzles, files of givens and a certificate."""
    texts = {
        'ring': picture_of('aaa/a.a/aaa'),
        'cross': picture_of('a./.a'),
        'short': 'P3\n',
        'long': 'P3\n#' + 'x' * 16_777_216,
        'none': '',
        'corner': 'given 1 1\n',
        'both': 'given 2 2\ngiven 1 1\n',
        'outside': 'given 3 1\n',
        'cert': CERT,
    }
    for name, text in texts.items():
        (tmp_path / name).write_text(text)
    return tmp_path


def assessed(nonobench, folder, *words):
    return ended([nonobench, 'assess', *words], cwd=folder)


@pytest.mark.parametrize(('text', 'answer'), rows('assess'))
def test_puzzle(nonobench, text, answer, tmp_path):
    words, _, text = text.rpartition(' : ')
    (tmp_path / 'file').write_bytes(
        printed(text[1:]) if text.startswith('=') else picture_of(text).encode()
    )
    run = ended([nonobench, 'assess', tmp_path / 'file', *words.split()])
    assert run == Ended(
        0 if answer.endswith('| fit') else 1, answer.replace(' | ', '\n').encode() + b'\n', b''
    )


def test_several(nonobench, folder):
    """A file that is refused has a line, and the others follow."""
    wanted = (
        f'puzzle 1\n{RING}puzzle 2\n{CROSS}puzzle 3\nrefused ppm Truncated at byte 3\npuzzle'
        f' 4\n{RING}'
    )
    assert assessed(nonobench, folder, 'ring', 'cross', 'short', 'ring') == Ended(
        1, wanted.encode(), b''
    )


def test_all_fit(nonobench, folder):
    assert assessed(nonobench, folder, 'ring', 'ring') == Ended(
        0, f'puzzle 1\n{RING}puzzle 2\n{RING}'.encode(), b''
    )


@pytest.mark.parametrize('others', [[], ['ring'], ['cross']])
def test_unread(nonobench, folder, others):
    """A file that cannot be read is told where it stands, and the status is that of a failed
    read."""
    blocks = {'ring': RING, 'cross': CROSS, 'absent': 'refused read\n'}
    names = ['absent', *others]
    head = 'puzzle {}\n' if others else ''
    wanted = ''.join(head.format(number) + blocks[name] for number, name in enumerate(names, 1))
    assert assessed(nonobench, folder, *names) == Ended(
        3, wanted.encode(), b'nonobench: read failed\n'
    )


def test_too_long(nonobench, folder):
    assert assessed(nonobench, folder, 'long', 'ring') == Ended(
        1, f'puzzle 1\nrefused too long\npuzzle 2\n{RING}'.encode(), b''
    )


# The files beside the cross, and its block.
BESIDE = {
    ('--givens', 'none'): CROSS,
    ('--givens', 'corner'): ONE_GIVEN + 'fit\n',
    ('--givens', 'both'): TWO_GIVENS + 'flaw given 1 1\nunfit\n',
    ('--givens', 'outside'): 'refused givens Place at line 1\n',
    ('--givens', 'corner', '--certificate', 'cert'): ONE_GIVEN + 'fit\n',
    ('--givens', 'both', '--certificate', 'cert'): TWO_GIVENS + 'flaw given 1 1\nunfit\n',
    (
        '--givens',
        'none',
        '--certificate',
        'cert',
    ): 'refused certificate UnpublishedGiven at line 2\n',
    ('--certificate', 'cert'): 'refused certificate UnpublishedGiven at line 2\n',
    ('--certificate', 'corner'): 'refused certificate NotCert at line 1\n',
}


@pytest.mark.since('0.8.0')
@pytest.mark.parametrize('words', BESIDE)
def test_beside(nonobench, folder, words):
    wanted = BESIDE[words]
    assert assessed(nonobench, folder, 'cross', *words) == Ended(
        0 if wanted.endswith('\nfit\n') else 1, wanted.encode(), b''
    )


# Words that are refused before a file is opened, and what is said.
REFUSED = {
    ('ring', 'cross', '--givens', 'corner'): 'givens and certificate go with one file',
    ('ring', 'ring', '--certificate', 'cert'): 'givens and certificate go with one file',
    ('absent', '--background', '1,2'): 'background must be R,G,B',
    ('absent', '--format', 'non', '--background', '1,2,3'): 'background goes with ppm',
    ('absent', '--allow', '100000'): 'allowance must be 0 to 99999 or off',
    ('absent', '--allow', 'of'): 'allowance must be 0 to 99999 or off',
}


@pytest.mark.since('0.8.0')
@pytest.mark.parametrize('words', REFUSED)
def test_refused(nonobench, folder, words):
    assert assessed(nonobench, folder, *words) == Ended(
        2, b'', f'nonobench: {REFUSED[words]}\n'.encode()
    )


@pytest.mark.parametrize(
    'words',
    [[], ['ring', '--format', 'png']],
)
def test_words(nonobench, folder, words):
    run = assessed(nonobench, folder, *words)
    assert (run.status, run.wrote) == (2, b'')


@pytest.mark.parametrize(
    'words',
    [
        ('--givens', 'absent'),
        ('--certificate', 'absent'),
        ('--givens', 'corner', '--certificate', 'absent'),
    ],
)
def test_unread_beside(nonobench, folder, words):
    assert assessed(nonobench, folder, 'ring', *words) == Ended(3, b'', b'nonobench: read failed\n')
