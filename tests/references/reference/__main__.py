"""A checker of certificates that shares no code with the proved one.

Usage, in the folder tests/references: python3 -m reference PICTURE.ppm CERTIFICATE [R,G,B]

R,G,B is the background, white if none is named. It prints what `nonobench check` prints, without
the name of the program, and ends with its status: 0 if the certificate is accepted, 1 if it is
refused, 2 if the arguments are wrong, 3 if a file cannot be read.
"""
import re
import sys
from pathlib import Path

from .checks import answer


def main():
    """The command."""
    if len(sys.argv) not in (3, 4) or not re.fullmatch(
        '[0-9]+,[0-9]+,[0-9]+', (sys.argv[3:] or ['0,0,0'])[0]
    ):
        print(__doc__.strip(), file=sys.stderr)
        return 2
    background = (
        tuple(int(sample) for sample in sys.argv[3].split(',')) if len(sys.argv) == 4 else None
    )
    try:
        picture, text = (Path(name).read_bytes() for name in sys.argv[1:3])
    except OSError as error:
        print(error, file=sys.stderr)
        return 3
    line, status = answer(picture, text, background)
    print(line, file=sys.stderr if status else sys.stdout)
    return status


if __name__ == '__main__':
    sys.exit(main())
