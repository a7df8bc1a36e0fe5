"""Two-colour puzzles in .non, both ways."""
import re

from plain_forms import Fault

from .lines import clue_of, clues_of
from .pictures import MAX_SIDE, value_of

BLANKS = b' \t'
ONCE = (b'width', b'height', b'rows', b'columns')


def lines_of(text):
    """The lines of a text without their ends."""
    pieces = text.split(b'\n')
    last = pieces.pop()
    pieces = [piece[:-1] if piece.endswith(b'\r') else piece for piece in pieces]
    last = last[:-1] if last.endswith(b'\r') else last
    return pieces + [last] if last else pieces


def keyword_of(line):
    """The keyword of a line and the bytes behind it, or None."""
    found = re.match(rb'[ \t]*([a-z][^ \t]*)', line)
    return (found.group(1), line[found.end() :]) if found else None


class Parts:
    """What stands where in a .non text: sizes, sections and the first goal."""

    def __init__(self, text):
        self.sizes = {}
        self.sections = {}
        self.goal = None
        section = None
        for line in lines_of(text):
            if line.lstrip(BLANKS).startswith(b'#'):
                continue
            found = keyword_of(line)
            if found is None:
                if section is not None:
                    section.append(line)
                continue
            section = self.take(*found)

    def take(self, keyword, rest):
        """Takes a keyword line; the section that it begins, or None."""
        if keyword in ONCE and (keyword in self.sizes or keyword in self.sections):
            raise Fault('Repeated')
        if keyword in (b'width', b'height'):
            value = value_of(rest.strip(BLANKS))
            if value is None or not 1 <= value <= MAX_SIDE:
                raise Fault('BadSize')
            self.sizes[keyword] = value
        elif keyword in (b'rows', b'columns'):
            return self.sections.setdefault(keyword, [])
        elif keyword == b'goal' and self.goal is None:
            self.goal = rest.strip(BLANKS)
        return None


def clue_lines(section, count):
    """The lines of a section that are its clues."""
    if section is None:
        raise Fault('BadCount')
    filled = [line for line in section if line.strip(BLANKS)]
    if len(filled) == count:
        return filled
    if len(section) < count or any(line.strip(BLANKS) for line in section[count:]):
        raise Fault('BadCount')
    return section[:count]


def clue_in(line, length):
    """The clue of a line of numbers."""
    if not line.strip(BLANKS):
        return ()
    values = [value_of(place.strip(BLANKS)) for place in line.split(b',')]
    if values == [0]:
        return ()
    if None in values or 0 in values:
        raise Fault('BadClue')
    if sum(values) + len(values) - 1 > length:
        raise Fault('ClueTooLong')
    return tuple((value, 1) for value in values)


def goal_rows(value, height, width):
    """The rows of a goal."""
    quoted = re.fullmatch(rb'"([^"]*)"[ \t]*', value)
    digits = quoted.group(1) if quoted else value
    if len(digits) != height * width or digits.strip(b'01'):
        raise Fault('BadGoal')
    return [[digits[row * width + col] - 48 for col in range(width)] for row in range(height)]


def read_non(text):
    """The sizes, the clues and the goal's rows (or None) of a .non text, or its first fault."""
    parts = Parts(text)
    if len(parts.sizes) < 2:
        raise Fault('MissingSize')
    width, height = parts.sizes[b'width'], parts.sizes[b'height']
    clues = {}
    for axis, keyword, count, length in (
        ('r', b'rows', height, width),
        ('c', b'columns', width, height),
    ):
        for at, line in enumerate(clue_lines(parts.sections.get(keyword), count)):
            clues[axis, at] = clue_in(line, length)
    if parts.goal is None:
        return height, width, clues, None
    goal = goal_rows(parts.goal, height, width)
    if clues_of(goal) != clues:
        raise Fault('GoalDisagrees')
    return height, width, clues, goal


def write_non(rows):
    """The .non text of a picture of two colours."""
    if any(colour > 1 for row in rows for colour in row):
        raise Fault('TwoColoursOnly')

    def clue_line(cells):
        return ','.join(str(length) for length, _ in clue_of(cells)) or '0'

    lines = [f'width {len(rows[0])}', f'height {len(rows)}', 'rows']
    lines += [clue_line(row) for row in rows]
    lines += ['columns'] + [clue_line(column) for column in zip(*rows)]
    lines.append('goal "%s"' % ''.join(str(colour) for row in rows for colour in row))
    return ''.join(line + '\n' for line in lines).encode()
