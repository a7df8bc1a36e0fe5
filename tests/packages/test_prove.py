"""A certificate with givens has the same bytes from the program and from the library."""

import pytest
from tried import EXAMPLES, ROOT, ended

MEASURED = ROOT / 'measure' / 'pictures'
PICTURES = [
    EXAMPLES / 'flower.ppm',
    EXAMPLES / 'crab.ppm',
    MEASURED / 'hard-12-k2-min.ppm',
    MEASURED / 'hard-16-k2-d20.ppm',
    MEASURED / 'hard-20-k3-min.ppm',
]


def proved(program, picture, givens, form):
    """What the program prints."""
    words = ['prove', '--givens', givens, '--format', str(form), picture]
    run = ended([program, *words])
    assert (run.status, run.said) == (0, b'')
    return run.wrote


@pytest.mark.since('0.8.0')
@pytest.mark.parametrize('picture', PICTURES, ids=lambda picture: picture.stem)
@pytest.mark.parametrize('form', [1, 2])
def test_by_the_library(library, build, picture, form, tmp_path):
    import nonobench

    (tmp_path / 'givens').write_text('given 1 1\n', encoding='ascii')
    wanted = proved(build.program('nonobench'), picture, tmp_path / 'givens', form)
    found = nonobench.prove(picture.read_bytes(), published=[(1, 1)], format=form)
    assert found.certificate == wanted
    assert nonobench.check(picture.read_bytes(), wanted, published=[(1, 1)]).givens == ((1, 1),)
