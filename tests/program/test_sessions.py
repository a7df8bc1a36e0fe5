"""Runs sessions and compares what they print with the texts beside them.

NAME.session is run on NAME.ppm or NAME.non, with the background in NAME.ppm.background and the
depth in NAME.history, if there are such files. If a line of NAME.out is two texts with ` or `
between them, either of them is right. NAME.since has the version since which there are such words.

A session that ends with `certify` prints a certificate last, and which one is not determined. So
the text before it is compared, and the certificate is checked with the picture that `write ppm`
printed before it: the certificate that the program prints and the one in NAME.out must both be
accepted, with the same number of givens."""

import re

import pytest
from tried import EXAMPLES, ROOT, ended

FOLDERS = (EXAMPLES, ROOT / 'tests' / 'sessions')


def sessions():
    """Each session, with the version since which it is understood."""
    for folder in FOLDERS:
        for file in sorted(folder.glob('*.session')):
            since = file.with_suffix('.since')
            marks = [pytest.mark.since(since.read_text().strip())] if since.exists() else []
            yield pytest.param(file, marks=marks, id=f'{folder.name}/{file.stem}')


def words_of(file):
    """The words of the picture or puzzle of a session, and those of its background."""
    picture = file.with_suffix('.ppm')
    words = [picture] if picture.exists() else [file.with_suffix('.non'), '--format', 'non']
    history, background = file.with_suffix('.history'), file.with_suffix('.ppm.background')
    if history.exists():
        words += ['--history', history.read_text().strip()]
    return words, ['--background', background.read_text().strip()] if background.exists() else []


def cut(text):
    """What a text has before its certificate, the picture at the end of that, and the
    certificate."""
    begins = re.search(r'(?m)^nonocert ', text)
    front, cert = (text[: begins.start()], text[begins.start() :]) if begins else (text, '')
    picture = re.search(r'(?ms)^P3$.*', front)
    return front, picture[0] if picture else '', cert


def chosen(wanted, got):
    """The wanted lines: of two texts in one line the one that was printed there, if it is one of
    them."""
    printed = got.split('\n')
    for at, line in enumerate(wanted.split('\n')):
        one, both, other = line.partition(' or ')
        yield other if both and (at >= len(printed) or printed[at] != one) else one


def checked(program, folder, picture, cert, background):
    """What the check says of a pair."""
    for name, text in (('pair.ppm', picture), ('pair.cert', cert)):
        (folder / name).write_text(text)
    return ended([program, 'check', folder / 'pair.ppm', folder / 'pair.cert', *background])


@pytest.mark.parametrize('file', sessions())
def test_session(program, file, tmp_path):
    words, background = words_of(file)
    run = ended([program.path, 'work', *words, *background], file.read_bytes())
    assert (run.status, run.said) == (0, b'')
    front, picture, cert = cut(run.wrote.decode())
    wanted_front, wanted_picture, wanted_cert = cut(file.with_suffix('.out').read_bytes().decode())
    assert front == '\n'.join(chosen(wanted_front, front))
    if file.read_bytes().removesuffix(b'\n').rpartition(b'\n')[2] == b'certify':
        run = checked(program.path, tmp_path, picture, cert, background)
        assert (run.status, run.said) == (0, b'')
        assert run == checked(program.path, tmp_path, wanted_picture, wanted_cert, background)
