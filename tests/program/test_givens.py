"""Which of three files is looked at first, and which given is named that is not published."""

from test_cases import DIAGONAL_CERT, picture_of, put
from tried import Ended, ended


def checked(program, folder, givens, picture=picture_of('a./.a'), cert=DIAGONAL_CERT):
    """How a check of these texts ends."""
    return ended(
        [program.path, 'check', '--givens', *put(folder, givens=givens, picture=picture, cert=cert)]
    )


def said(line):
    return Ended(1, b'', f'nonobench: {line}\n'.encode())


def test_order(program, tmp_path):
    """The picture, then the givens, then the certificate; and only what is right otherwise names a
    given that is not published."""
    wrong = DIAGONAL_CERT.replace('line r 2\n', '')
    assert checked(program, tmp_path, b'x', picture='P6', cert='x') == said('ppm NotP3 at byte 0')
    assert checked(program, tmp_path, b'x', cert='x') == said('givens BadLine at line 1')
    assert checked(program, tmp_path, b'', cert='x') == said('certificate NotCert at line 1')
    assert checked(program, tmp_path, b'', cert=wrong) == said('certificate NotDone at line 5')
    assert checked(program, tmp_path, b'') == said('certificate UnpublishedGiven at line 2')


def test_first_given_that_is_not_published(program, tmp_path):
    """Its line is that of the certificate. The certificate without givens needs none that are
    published."""
    all_given = 'nonocert 2\ngiven 1 1\ngiven 1 2\ngiven 2 1\ngiven 2 2\ndone\n'
    assert checked(program, tmp_path, b'given 1 1\ngiven 2 2\n', cert=all_given) == said(
        'certificate UnpublishedGiven at line 3'
    )
    plain = (
        'nonocert 1\nline r 1\nsplit 1 1\nline c 1\ndead r 2\nline r 1\nline c 1\nline c 2\ndone\n'
    )
    run = checked(program, tmp_path, b'', picture=picture_of('a./.b'), cert=plain)
    assert run == Ended(0, b'certificate accepted\n', b'')
