"""Checks a certificate by the package for Python, with the cells that are published: ask.py PICTURE
CERTIFICATE [ROW,COLUMN ..].

It prints what c/example.c prints, and has its exit statuses.
"""

import sys
from pathlib import Path

import nonobench


def main(names: list[str]) -> int:
    picture, certificate = (Path(name).read_bytes() for name in names[:2])
    published = [
        (int(row), int(column)) for row, column in (place.split(",") for place in names[2:])
    ]
    try:
        result = nonobench.check(picture, certificate, published=published)
    except nonobench.CertificateError as error:
        print("refused: certificate", error.name, "at line", error.line)
        return 1
    count = len(result.givens)
    print("certificate accepted" + (f", givens {count}" if count else ""))
    return 0


if __name__ == "__main__":
    sys.exit(main(sys.argv[1:]))
