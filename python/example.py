"""Asks the library about a picture and a certificate, as files, with the cells that are published:

    python3 example.py PICTURE CERTIFICATE [ROW,COLUMN ..]
"""
import sys
from pathlib import Path

import nonobench

picture, certificate = (Path(name).read_bytes() for name in sys.argv[1:3])
published = [tuple(map(int, place.split(","))) for place in sys.argv[3:]]
print(nonobench.clues(picture), end="")
print(nonobench.verdict(picture, allowance=1000))
try:
    print(nonobench.check(picture, certificate, published=published), end="")
except nonobench.CertificateError as error:
    print(error.name, "at line", error.line)
