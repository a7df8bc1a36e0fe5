"""Texts of pictures, puzzles and certificates with what the program answers, as tests/cases/ has
them.

A line of a file is TEXT => ANSWER, where the text is written as for printf. An answer is what is
written, with ` | ` between its lines, or `! ` and what is said. `# since VERSION` holds for the
lines up to the next empty one: older programs do not know their words."""

import re

import pytest
from tried import CASES, Ended, as_bytes, ended

DIAGONAL_CERT = 'nonocert 2\ngiven 1 1\nline r 1\nline c 1\nline r 2\ndone\n'
SAMPLES = {'a': '0 0 0', 'b': '255 0 0'}
ESCAPED = {'n': b'\n', 'r': b'\r', 't': b'\t', 'f': b'\f', 'v': b'\v', '\\': b'\\'}


def printed(text):
    """The bytes of a text with escapes, as printf has them."""
    parts = re.split(r'\\(x[0-9a-f]{2}|.)', text)
    return b''.join(
        part.encode()
        if at % 2 == 0
        else bytes.fromhex(part[1:])
        if part[0] == 'x'
        else ESCAPED[part]
        for at, part in enumerate(parts)
    )


def rows(kind):
    """The lines of a file of cases: what is asked, and what has to come."""
    marks = []
    for number, line in enumerate((CASES / f'{kind}.case').read_text().split('\n'), 1):
        since = re.match(r'# since (\S+)', line)
        if not line or since:
            marks = [pytest.mark.since(since[1])] if since else []
        if line and not line.startswith('#'):
            text, _, answer = line.rpartition(' => ')
            yield pytest.param(text, answer, marks=marks, id=f'{kind}:{number}')


def answered(run, answer, hint=''):
    """Compares how a program ended with an answer. A hint stands on a line of its own, behind what
    is said."""
    if answer.startswith('! '):
        assert run == Ended(1, b'', f'nonobench: {answer[2:]}\n{hint}'.encode())
    else:
        assert run == Ended(0, answer.replace(' | ', '\n').encode() + b'\n', b'')


def picture_of(cells):
    """A picture of white, black and red cells, as rows with `/` between them."""
    across = cells.split('/')
    samples = ''.join(f'{SAMPLES.get(cell, "255 255 255")}\n' for cell in ''.join(across))
    return f'P3\n{len(across[0])} {len(across)}\n255\n{samples}'


def put(folder, **texts):
    """Writes files, and gives their paths."""
    folder.mkdir(exist_ok=True)
    for name, text in texts.items():
        (folder / name).write_bytes(as_bytes(text))
    return [folder / name for name in texts]


def lines_of(places):
    """The lines of a file of givens, of places such as 1,2."""
    return ''.join(f'given {place.replace(",", " ")}\n' for place in places)


def puzzle_of(folder, text):
    return ['work', *put(folder, file=printed(text)), '--format', 'non'], b'write non\n'


def check_of(folder, text):
    cells, _, cert = text.partition(' ')
    return ['check', *put(folder, picture=picture_of(cells), cert=printed(cert))], b''


def givens_of(folder, text):
    givens, picture, cert = put(
        folder, givens=printed(text), picture=picture_of('a./.a'), cert=DIAGONAL_CERT
    )
    return ['check', '--givens', givens, picture, cert], b''


def published_of(folder, text):
    """What the libraries must answer, too."""
    cells, published, cert = text.split(' ', 2)
    lines = lines_of(published.split(';')) if published != '-' else ''
    picture, cert, givens = put(folder, picture=picture_of(cells), cert=printed(cert), givens=lines)
    return ['check', picture, cert, *([] if published == 'any' else ['--givens', givens])], b''


# How a program is called for a text of each kind of case, with files in a folder: its words and its
# input.
CALLS = {
    'pictures': lambda folder, text: ([], printed(text)),
    'puzzles': puzzle_of,
    'certificates': check_of,
    'lemmas': check_of,
    'givens': givens_of,
    'published': published_of,
}


def expected(kind, answer):
    """What the program must answer: of what is published, a library tells the givens, too, and they
    come first."""
    return answer.split(' ', 1)[1] if kind == 'published' else answer


def hint_of(program, text):
    """What the program in JavaScript says of a certificate whose first line ends with CR LF."""
    is_hinted = program.in_node and printed(text).split(b'\n', 1)[0].endswith(b'\r')
    return 'nonobench: its lines end with CR LF, and must end with LF only\n' if is_hinted else ''


ASKED = [
    pytest.param(kind, *row.values, marks=row.marks, id=row.id)
    for kind in CALLS
    for row in rows(kind)
]


@pytest.mark.parametrize(('kind', 'text', 'answer'), ASKED)
def test_case(program, kind, text, answer, tmp_path):
    words, given = CALLS[kind](tmp_path, text)
    hint = hint_of(program, text) if CALLS[kind] is check_of else ''
    answered(ended([program.path, *words], given), expected(kind, answer), hint)


@pytest.mark.parametrize(('text', 'answer'), rows('proved'))
def test_proved(program, text, answer, tmp_path):
    """What is proved of a picture, with bounds and without; where it is a certificate, that is
    checked with the same givens."""
    cells, _, named = text.partition(' ')
    picture, file = put(tmp_path, picture=picture_of(cells), givens=lines_of(named.split()))
    givens = ['--givens', file] if named else []
    for words in ([], ['--complete']):
        run = ended([program.path, 'prove', *words, *givens, picture])
        if answer == 'certificate':
            assert (run.status, run.said) == (0, b'')
            count = f', givens {len(named.split())}' if named else ''
            answered(
                ended([program.path, 'check', *givens, picture, *put(tmp_path, cert=run.wrote)]),
                f'certificate accepted{count}',
            )
        else:
            assert run == Ended(1, f'{answer}\n'.encode(), b'')
