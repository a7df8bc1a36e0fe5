"""The package goes with a library of its own version. Its tests wait for the release with that."""

import pytest


def pytest_collection_modifyitems(items):
    for item in items:
        if item.path.parent.name == "tests" and item.path.parent.parent.name == "python":
            item.add_marker(pytest.mark.since("0.8.0"))
