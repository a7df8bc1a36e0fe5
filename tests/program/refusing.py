"""Compiles refuse.c, the library that refuses growths of memory."""

import subprocess
from pathlib import Path


def compiled(folder):
    """The library in a folder, as a path."""
    library = Path(folder, 'refuse.so')
    subprocess.run(
        ['cc', '-O1', '-shared', '-fPIC', '-o', library, Path(__file__).with_name('refuse.c')],
        check=True,
    )
    return library
