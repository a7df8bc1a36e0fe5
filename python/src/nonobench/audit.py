"""Runs nonobench-audit: python3 -m nonobench.audit PATH.. The code is in nonobench.collection."""

import os
import sys

if __name__ != "__main__":
    # The package has a call of this name too, and an import of this module must not take its place.
    from ._calls import audit

    sys.modules[__name__] = audit  # type: ignore[assignment]
else:
    # Files of the current folder are not to be taken for libraries, unless the package itself lies
    # there.
    here, package = os.getcwd(), os.path.dirname(os.path.dirname(os.path.abspath(__file__)))
    sys.path[:] = [
        path for path in sys.path if os.path.abspath(path or ".") != here or here == package
    ]
    from nonobench.collection import main

    sys.exit(main())
