"""Says what the package offers and what is there for it: python3 -m nonobench"""

import importlib.metadata
import importlib.util
import os
import sys
import sysconfig

import nonobench
from nonobench._process import folders

LIBRARIES = (
    ("Pillow", "PIL", "PNG as puzzles"),
    ("defusedxml", "defusedxml", "Web Paint-by-Number's XML"),
    ("Jinja2", "jinja2", "the report of an audit"),
    ("tqdm", "tqdm", "a bar while an audit runs"),
    ("distributed", "distributed", "an audit on more machines"),
)
OFFERS = """
  nonobench-audit PATH..    which puzzles of a collection are fit to be published; see --help
  python3 -m nonobench.audit PATH..    the same
  import nonobench          check, clues, verdict and more in a program of your own; see help(nonobench)
"""  # noqa: E501


def main() -> None:
    """Prints it."""
    print(f"nonobench {nonobench.version()}, of {nonobench._library.PATH}\n{OFFERS}")
    recipes = os.path.join(sysconfig.get_path("data"), "share/doc/nonobench/docs/RECIPES.md")
    if os.path.isfile(recipes):
        print(f"  recipes: {recipes}\n")
    for name, module, use in LIBRARIES:
        is_there = importlib.util.find_spec(module) is not None
        print(
            f"  {name:12} {use:28} {_version(name) if is_there else f'not installed (pip install {name})'}"  # noqa: E501
        )


def _version(name: str) -> str:
    try:
        return importlib.metadata.version(name)
    except importlib.metadata.PackageNotFoundError:
        return "installed"


if __name__ == "__main__":
    sys.path[:] = folders()  # the processes of an audit look there
    main()
