"""The executor of Dask's distributed."""

from __future__ import annotations

import contextlib
from concurrent.futures import Executor
from typing import Iterator

from .puzzles import MissingLibraryError


@contextlib.contextmanager
def executor_at(address: str) -> Iterator[Executor]:
    """The workers of a scheduler, which need this package in the same version."""
    try:
        from distributed import Client
    except ImportError:
        raise MissingLibraryError("distributed", "goes with --scheduler") from None
    with Client(address, set_as_default=False) as client:  # type: ignore[no-untyped-call]
        yield client.get_executor(pure=False)
