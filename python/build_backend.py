"""Packs the wheel with Python's own library alone, so pip installs without a network: `build_wheel`
is what pip calls (PEP 517)."""

import base64
import hashlib
import os
import re
import sysconfig
import time
import zipfile
from pathlib import Path

HERE = Path(__file__).resolve().parent
# It lies beside the package, or c/build left it.
LIBRARY = "libnonobench.so"
# What the package has: code, and the parts of the report that an audit makes.
CARRIED = (".py", ".html", ".css", ".js")
# What is put below the folder of an environment, where these folders lie beside this file: recipes
# with their examples, and programs.
LAID = {"share": "data/share", "scripts": "scripts"}
TAGS = "Wheel-Version: 1.0\nGenerator: nonobench\nRoot-Is-Purelib: {}\n"
METADATA = (
    "Metadata-Version: 2.1\nName: {name}\nVersion: {version}\nSummary:"
    " {description}\nRequires-Python: {python}\nAuthor: {author}\nLicense: {licence}\nKeywords:"
    " {keywords}\n"
)
# The first day that an archive can name: what is packed has this one, or that of SOURCE_DATE_EPOCH,
# so that its bytes are the same each time.
FIRST_DAY = 315532800


def build_wheel(wheel_directory, config_settings=None, metadata_directory=None):
    """Writes the wheel into a folder, and answers its name. The setting `platform` names the
    platforms of a library that is packed, with a dot between them."""
    project = _project()
    files = _package()
    is_pure = f"nonobench/{LIBRARY}" not in files
    here = re.sub(r"\W", "_", sysconfig.get_platform())
    platforms = "any" if is_pure else (config_settings or {}).get("platform", here)
    title = "{name}-{version}".format(**project)
    readme = (HERE / "README.md").read_text(encoding="utf-8")
    classifiers = (f"Classifier: {it}\n" for it in project["classifiers"])
    more = (
        "".join([*classifiers, *_extra_lines(project["extras"])])
        + "Description-Content-Type: text/markdown\n\n"
    )
    files[f"{title}.dist-info/METADATA"] = f"{METADATA.format(**project)}{more}{readme}".encode()
    files[
        f"{title}.dist-info/entry_points.txt"
    ] = f"[console_scripts]\n{project['scripts']}\n".encode()
    for folder, place in LAID.items():
        for file in sorted(filter(Path.is_file, (HERE / folder).rglob("*"))):
            path = file.relative_to(HERE / folder).as_posix()
            files[f"{title}.data/{place}/{path}"] = file.read_bytes()
    if (HERE / "NOTICES").is_file():
        files[f"{title}.dist-info/NOTICES"] = (HERE / "NOTICES").read_bytes()
    tags = "".join(f"Tag: py3-none-{platform}\n" for platform in platforms.split("."))
    files[f"{title}.dist-info/WHEEL"] = (TAGS.format(str(is_pure).lower()) + tags).encode()
    record = f"{title}.dist-info/RECORD"
    files[record] = "".join([*map(_line, files, files.values()), f"{record},,\n"]).encode()
    name = f"{title}-py3-none-{platforms}.whl"
    with zipfile.ZipFile(Path(wheel_directory, name), "w", zipfile.ZIP_DEFLATED) as wheel:
        for place, content in files.items():
            wheel.writestr(_entry(place), content)
    return name


def _project():
    """What pyproject.toml says of the package. Python reads that format from 3.11 on, so its lines
    are looked for."""
    text = (HERE / "pyproject.toml").read_text(encoding="utf-8")
    project = dict(
        re.findall(r'^(name|version|description|requires-python) = "(.*)"$', text, re.MULTILINE)
    )
    tables = dict(re.findall(r"^\[([\w.-]+)\]\n((?:(?!\[).+\n)*)", text, re.MULTILINE))
    extras = re.findall(
        r"^([\w-]+) = \[(.*)\]$", tables.get("project.optional-dependencies", ""), re.MULTILINE
    )
    scripts = re.findall(r'^([\w-]+) = "(.*)"$', tables.get("project.scripts", ""), re.MULTILINE)
    listed = {
        name: re.findall(r'"([^"]+)"', words)
        for name, words in re.findall(r"^(\w+) = \[([^]]*)\]$", tables["project"], re.MULTILINE)
    }
    return {
        **project,
        **listed,
        "keywords": ",".join(listed["keywords"]),
        "author": re.search(r'^authors = \[\{ name = "(.*)" \}\]$', text, re.MULTILINE)[1],
        "licence": re.search(r'^license = \{ text = "(.*)" \}$', text, re.MULTILINE)[1],
        "python": project["requires-python"],
        "extras": {name: re.findall(r'"([^"]+)"', words) for name, words in extras},
        "scripts": "\n".join(f"{name} = {call}" for name, call in scripts),
    }


def _extra_lines(extras):
    """The lines of the metadata for the libraries that only some ways of use want."""
    for name, libraries in extras.items():
        yield f"Provides-Extra: {name}\n"
        for library in libraries:
            yield f'Requires-Dist: {library}; extra == "{name}"\n'


def _package():
    """The package's files by their places: the library is beside them, or c/build left it, or the
    system has it."""
    sources = HERE / "src" / "nonobench"
    files = [
        file
        for file in sorted(sources.rglob("*"))
        if file.suffix in CARRIED or file.name == "py.typed"
    ]
    packed = {file.relative_to(HERE / "src").as_posix(): file.read_bytes() for file in files}
    for place in (sources / LIBRARY, HERE.parent / "c" / "out" / LIBRARY):
        if place.is_file():
            return {**packed, f"nonobench/{LIBRARY}": place.read_bytes()}
    return packed


def _entry(place):
    """The place of a file in the wheel: readable by all, and of a day that is always the same."""
    entry = zipfile.ZipInfo(
        place, time.gmtime(int(os.environ.get("SOURCE_DATE_EPOCH", FIRST_DAY)))[:6]
    )
    entry.compress_type = zipfile.ZIP_DEFLATED
    entry.create_system = 3
    entry.external_attr = (0o100755 if ".data/scripts/" in place else 0o100644) << 16
    return entry


def _line(place, content):
    """The line of a file in the wheel's record."""
    digest = base64.urlsafe_b64encode(hashlib.sha256(content).digest()).decode().rstrip("=")
    return f"{place},sha256={digest},{len(content)}\n"
