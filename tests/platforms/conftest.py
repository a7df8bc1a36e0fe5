"""The systems on which library and program for other systems are run."""

import pytest


@pytest.fixture(scope='session')
def system(request, others, tmp_path_factory):
    """A system, and where its library and program are."""
    found = request.param(others, tmp_path_factory.mktemp('system'))
    request.addfinalizer(found.end)
    return found
