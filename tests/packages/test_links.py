"""Which links packages/links leaves in the pages of a package."""

from tried import ROOT, passes

PAGE = """# A page

[A](other.md), [B](other.md#its-heading), [C](#a-page), [D](https://example.org/x.md) and [`E`](inner/third.md) stay.

![A picture](gone.png)

[F](gone.md#x), [`G` and H](../outside.md), [I](other.md#none), [J](#none) and [K](inner) are texts.
"""  # noqa: E501
MENDED = """# A page

[A](other.md), [B](other.md#its-heading), [C](#a-page), [D](https://example.org/x.md) and [`E`](inner/third.md) stay.

F, `G` and H, I, J and K are texts.
"""  # noqa: E501
THIRD = '[A](../page.md#a-page)\n'


def test_links(tmp_path):
    """A second run changes nothing."""
    top = tmp_path / 'package'
    (top / 'inner').mkdir(parents=True)
    (top / 'page.md').write_text(PAGE)
    (top / 'other.md').write_text('## Its `heading`\n')
    (top / 'inner' / 'third.md').write_text(THIRD)
    (tmp_path / 'outside.md').write_text('')
    for _ in range(2):
        passes([ROOT / 'packages' / 'links', top])
        assert (top / 'page.md').read_text() == MENDED
        assert (top / 'inner' / 'third.md').read_text() == THIRD
