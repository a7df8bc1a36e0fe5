"""The arguments of nonobench-audit."""

from __future__ import annotations

import argparse
import functools
import os
import sys
from typing import NamedTuple, NoReturn, Optional

from .._answers import FLAW_KINDS
from .._library import version
from .finding import CERT, ENDINGS
from .puzzles import BOUNDS, Options, background_named, encodable

ABOUT = """Says which puzzles of a collection are fit to be published: each has one solution and no flaw.

PATH.. is one folder, which is searched, or files: pictures (PPM, PGM, PBM, PNG, one pixel per cell), .non puzzles, and Web
Paint-by-Number's XML with one puzzle. A puzzle x.png may have x.png.cert, its certificate, which is checked, x.png.givens, the
cells that are published with it, and x.png.background, its background."""  # noqa: E501

EXAMPLES = """examples:
  nonobench-audit site                                      a table of all puzzles below the folder site
  nonobench-audit site --html report.html                   a report to look at, in one file
  nonobench-audit site --jsonl rows.jsonl --csv rows.csv --certify certificates
  nonobench-audit site --jsonl rows.jsonl --resume          after an interruption: only what is new or changed
  nonobench-audit site --certified                          only certificates count: a check, and no search
  nonobench-audit uploads --untrusted --beside ours --sqlite puzzles.db
  nonobench-audit unpack set.xml folder                     a file for each puzzle of a set

status:
  0  every puzzle is fit to be published, and each certificate is accepted
  1  some puzzle is not: ambiguous, undecided, flawed, unreadable, or with a certificate that is refused
  2  the arguments are wrong
  3  the run failed: a folder, an output or a missing library; what is done is kept
  130, 143  it was stopped; what is done is kept"""  # noqa: E501

# What follows the name of a puzzle in the names of what --certify and --ppm make of it.
CERTIFIED = (CERT,)
PUBLISHED = (".ppm", *(f".ppm{ending}" for ending in ENDINGS))


class Arguments(NamedTuple):
    """What is asked for."""

    folder: Optional[str]  # that is searched; else there are files
    files: list[str]
    list_of_files: Optional[str]
    beside: Optional[str]
    options: Options
    jsonl: Optional[str]
    csv: Optional[str]
    html: Optional[str]
    sqlite: Optional[str]
    certify: Optional[str]
    ppm: Optional[str]
    title: str
    is_quiet: bool
    is_resumed: bool
    jobs: int
    scheduler: Optional[str]

    def inputs(self) -> list[str]:
        """The folder that is searched, or the files that are read."""
        listed = self.list_of_files
        more = [name for name in (self.folder, listed) if name is not None and name != "-"]
        return self.files + more

    def outputs(self) -> list[str]:
        """The files that are written."""
        named = (self.jsonl, self.csv, self.html, self.sqlite)
        return [name for name in named if name is not None and name != "-"]

    def folders(self) -> list[str]:
        """The folders for what is made of puzzles."""
        return [name for name in (self.certify, self.ppm) if name is not None]

    def paths_of(self, name: str) -> dict[str, str]:
        """Where what is made of a puzzle is written, by what follows the puzzle's name."""
        endings = ((self.certify, CERTIFIED), (self.ppm, PUBLISHED))
        return {
            ending: os.path.join(folder, name + ending)
            for folder, made in endings
            for ending in made
            if folder is not None
        }


def arguments_of(words: list[str]) -> Arguments:
    """What words ask for. Wrong ones end the program with status 2, and help with 0."""
    parser = _parser()
    found = vars(parser.parse_args(words))
    paths, listed = found.pop("paths"), found["list_of_files"]
    found["allowed"] = tuple(found["allowed"])
    if (listed is None) == (not paths):
        parser.error("name a folder, or files, or --files-from FILE")
    folder = paths[0] if len(paths) == 1 and os.path.isdir(paths[0]) else None
    options = Options(
        **{name: found.pop(name) for name in Options._fields if name in found},
        is_certifying=found["certify"] is not None,
        is_publishing=found["ppm"] is not None,
    )
    if listed is not None:
        files = _names_in(parser, listed)
    else:
        files = paths if folder is None else []
        _refuse_paths(parser, files)
    arguments = Arguments(folder=folder, files=files, options=options, **found)
    _refuse(parser, arguments)
    return arguments


def _names_in(parser: argparse.ArgumentParser, listed: str) -> list[str]:
    """The names in a file, or on standard input."""
    try:
        with open(
            0 if listed == "-" else listed, encoding="utf-8", errors="surrogateescape"
        ) as lines:
            names = [name for name in (line.rstrip("\n") for line in lines) if name]
    except OSError as error:
        parser.error(f"--files-from {listed!r}: {error.strerror}")
    if any("\0" in name for name in names):
        parser.error(f"--files-from {listed!r}: there must be one name per line")
    return names


def _refuse_paths(parser: argparse.ArgumentParser, paths: list[str]) -> None:
    """Ends the program if a path on the command line is no file."""
    for path in paths:
        if os.path.isdir(path):
            parser.error(f"{path!r} is a folder: name one folder, or files")
        if not os.path.lexists(path):
            parser.error(f"no such file or folder: {path!r}")


def _refuse(parser: argparse.ArgumentParser, arguments: Arguments) -> None:
    """Ends the program if arguments do not go together."""
    if arguments.beside or arguments.folders():
        for path in arguments.files:
            if os.path.isabs(path) or ".." in path.split("/"):
                why = "with --beside, --certify or --ppm, a path must be relative, without '..'"
                parser.error(f"{path!r}: {why}")
    if arguments.is_resumed and not (arguments.sqlite or arguments.jsonl not in (None, "-")):
        parser.error("--resume needs --jsonl FILE or --sqlite FILE")
    if "-" in (arguments.html, arguments.sqlite):
        parser.error("--html and --sqlite need a file")
    if arguments.jsonl == arguments.csv == "-":
        parser.error("--jsonl and --csv cannot both be standard output")
    if arguments.options.is_certified and arguments.folders():
        parser.error("--certified makes no certificates: leave out --certify and --ppm")
    _refuse_outputs(parser, arguments)
    _refuse_folders(parser, arguments)


def _refuse_outputs(parser: argparse.ArgumentParser, arguments: Arguments) -> None:
    """Ends the program if an output is an input or another output, or if it would not be a file."""
    taken = set(map(_resolved, arguments.inputs()))
    for name in arguments.outputs():
        if not name or os.path.isdir(name):
            parser.error(f"an output cannot be called {name!r}")
        if os.path.lexists(name) and (os.path.islink(name) or not os.path.isfile(name)):
            parser.error(f"{name!r} is no regular file")
        files = {_resolved(name), _resolved(f"{name}.new")}
        if taken & files:
            parser.error(f"{name!r} is an input, or another output")
        taken |= files


def _refuse_folders(parser: argparse.ArgumentParser, arguments: Arguments) -> None:
    """Ends the program if an output is in the folder that is searched, or if what is made of a
    puzzle would replace an input."""
    searched = arguments.folder
    for name in [*arguments.outputs(), *arguments.folders()]:
        if searched is not None and _is_within(os.path.realpath(name), os.path.realpath(searched)):
            parser.error(f"{name!r} is in {searched!r}, which is searched")
    for folder in arguments.folders():
        if not folder or (os.path.lexists(folder) and not os.path.isdir(folder)):
            parser.error(f"{folder!r} is no folder")
    inputs = {_resolved(path): path for path in arguments.inputs()}
    for name in arguments.files if arguments.folders() else ():
        for path in map(_resolved, arguments.paths_of(name).values()):
            if path in inputs:
                parser.error(f"{inputs[path]!r} is an input, and an output for {name!r}")


def _resolved(path: str) -> str:
    """An absolute path without links, but for that of a file, which is not followed."""
    return os.path.join(_resolved_folder(os.path.dirname(path)), os.path.basename(path))


@functools.lru_cache(1024)
def _resolved_folder(folder: str) -> str:
    return os.path.realpath(folder)


def _is_within(path: str, folder: str) -> bool:
    return path == folder or path.startswith(os.path.join(folder, ""))


def _parser() -> argparse.ArgumentParser:
    parser = argparse.ArgumentParser(
        "nonobench-audit",
        usage="nonobench-audit [OPTION].. PATH..\n       nonobench-audit unpack SET.xml DIR",
        description=ABOUT,
        epilog=EXAMPLES,
        formatter_class=argparse.RawDescriptionHelpFormatter,
        allow_abbrev=False,
    )
    parser.add_argument("paths", metavar="PATH", nargs="*", help="one folder to search, or files")
    parser.add_argument("--version", action="version", version=f"nonobench-audit {version()}")
    _add_inputs(parser.add_argument_group("what is read"))
    _add_rules(parser.add_argument_group("what is fit"))
    _add_outputs(parser.add_argument_group("output (without a file, a table on standard output)"))
    _add_bounds(parser.add_argument_group("bounds"))
    return parser


def _add_inputs(group: argparse._ArgumentGroup) -> None:
    add = group.add_argument
    add(
        "--files-from",
        metavar="FILE",
        dest="list_of_files",
        help="the names of files, one per line; - is standard input",
    )
    add(
        "--beside",
        metavar="DIR",
        type=_folder,
        help="look for certificates, givens and backgrounds below this folder, at the puzzles' "
        "paths",
    )
    add(
        "--untrusted",
        action="store_true",
        dest="is_untrusted",
        help="for strangers' files: ignore certificates, givens and backgrounds next to puzzles "
        "or in XML",
    )
    add(
        "--background",
        metavar="COLOUR",
        type=_background,
        default="auto",
        help="of pictures that name none: auto (of a PNG: transparent, white, or all corners), "
        "white, or R,G,B",
    )


def _add_rules(group: argparse._ArgumentGroup) -> None:
    add = group.add_argument
    add(
        "--certified",
        action="store_true",
        dest="is_certified",
        help="each puzzle needs a certificate that is accepted; nothing is searched",
    )
    add(
        "--allow-flaw",
        metavar="KIND",
        dest="allowed",
        action="append",
        choices=FLAW_KINDS,
        default=[],
        help=f"ignore flaws of this kind: {', '.join(FLAW_KINDS)}; may be repeated",
    )


def _add_outputs(group: argparse._ArgumentGroup) -> None:
    add = group.add_argument
    add("--jsonl", metavar="FILE", help="a line of JSON for each puzzle; - is standard output")
    add("--csv", metavar="FILE", help="for spreadsheets; - is standard output")
    add("--html", metavar="FILE", help="a report to look at, in one file that needs no network")
    add("--title", metavar="TEXT", type=encodable, default="Puzzles", help="title of the report")
    add("--sqlite", metavar="FILE", help="a database with a table that has a row for each file")
    add(
        "--resume",
        action="store_true",
        dest="is_resumed",
        help="keep the rows of --jsonl or --sqlite whose puzzles have not changed",
    )
    add("--certify", metavar="DIR", help="write x.png.cert for each puzzle with one solution")
    add(
        "--ppm",
        metavar="DIR",
        help="write x.png.ppm for each, with its certificate, givens and background",
    )
    add("--quiet", action="store_true", dest="is_quiet", help="print neither table nor progress")


def _add_bounds(group: argparse._ArgumentGroup) -> None:
    add = group.add_argument
    add(
        "--seconds",
        metavar="S",
        type=_Whole(*BOUNDS["seconds"]),
        default=10,
        help="seconds of processor time for each puzzle (10); ten times as many by the clock",
    )
    add(
        "--memory",
        metavar="MIB",
        type=_Whole(*BOUNDS["memory"]),
        default=1024,
        help="MiB of memory for each process (1024)",
    )
    add(
        "--max-guesses",
        metavar="N",
        type=_Whole(*BOUNDS["max_guesses"]),
        help="guesses of each search for another solution; then the same files give the same "
        "rows, without times",
    )
    add(
        "--jobs",
        metavar="N",
        type=_Whole(1, 4096),
        default=len(os.sched_getaffinity(0)),
        help="number of processes (one for each processor)",
    )
    add("--scheduler", metavar="ADDRESS", help="use the workers of this Dask scheduler")


class _Whole:
    """Reads a whole number between two others."""

    def __init__(self, least: int, most: int) -> None:
        self._least, self._most = least, most

    def __call__(self, word: str) -> int:
        if not word.isascii() or not word.isdigit() or len(word) > 9:
            raise argparse.ArgumentTypeError("must be a whole number")
        if not self._least <= int(word) <= self._most:
            raise argparse.ArgumentTypeError(f"must be {self._least} to {self._most}")
        return int(word)


def _folder(word: str) -> str:
    if not os.path.isdir(word):
        raise argparse.ArgumentTypeError(f"no such folder: {word!r}")
    return word


def _background(word: str) -> str:
    """The value of `--background`, as it was typed; of another form, it is a wrong argument."""
    try:
        background_named(word)
    except ValueError as error:
        raise argparse.ArgumentTypeError(str(error)) from error
    return word


def unpack_arguments(words: list[str]) -> tuple[str, str]:
    """The set and the folder of `unpack`."""
    parser = argparse.ArgumentParser(
        "nonobench-audit unpack",
        description="Writes a file for each puzzle of an XML set, with its title and givens.",
    )
    parser.add_argument("set", metavar="SET.xml")
    parser.add_argument("folder", metavar="DIR", help="is made; what lies there must be no puzzle")
    found = parser.parse_args(words)
    if os.path.isdir(found.folder) and os.listdir(found.folder):
        parser.error(f"{found.folder!r} is not empty")
    return found.set, found.folder


def fail(why: str, status: int = 3) -> NoReturn:
    """Ends the program."""
    print(f"nonobench-audit: {why}", file=sys.stderr)
    sys.exit(status)
