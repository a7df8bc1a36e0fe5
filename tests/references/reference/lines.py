"""One line and its clue: what fits, what is forced, and what all lines settle together.

A clue is a tuple of (length, colour). A line is told as (axis, number), axis 'r' or 'c', numbers
from 0.
"""
from functools import lru_cache

ALL = 0xFFFF
LISTED_UP_TO = 6  # lines of so many cells are settled by listing all their fillings


def clue_of(cells):
    """The clue of a list of colours: its runs of one colour that is not the background."""
    blocks = []
    before = 0
    for colour in cells:
        if colour and colour == before:
            blocks[-1][0] += 1
        elif colour:
            blocks.append([1, colour])
        before = colour
    return tuple((length, colour) for length, colour in blocks)


def clue_text(clue):
    """A clue as it is printed."""
    return ' '.join(f'{length}{letter(colour)}' for length, colour in clue) or '0'


def letter(colour):
    """The letter of a colour, `.` for the background."""
    return '.abcdefghijklmno'[colour]


def mask_letters(mask):
    """The letters of the colours of a mask, by rising number."""
    return ''.join(letter(k) for k in range(16) if mask >> k & 1)


def names(height, width):
    """The names of all lines, rows first."""
    return [('r', i) for i in range(height)] + [('c', i) for i in range(width)]


def line_of(rows, line):
    """A row, or a column read down."""
    axis, at = line
    return list(rows[at]) if axis == 'r' else [row[at] for row in rows]


def put_line(rows, line, cells):
    """Puts the cells of a line into rows."""
    axis, at = line
    for i, cell in enumerate(cells):
        if axis == 'r':
            rows[at][i] = cell
        else:
            rows[i][at] = cell


def clues_of(rows):
    """The clue of each line of a picture."""
    return {line: clue_of(line_of(rows, line)) for line in names(len(rows), len(rows[0]))}


@lru_cache(maxsize=20000)
def fillings(clue, length):
    """All lists of a length with a clue, written out."""
    if not clue:
        return [(0,) * length]
    (first, colour), rest = clue[0], clue[1:]
    gap = 1 if rest and rest[0][1] == colour else 0
    found = []
    for start in range(length - first - gap + 1 if rest else length - first + 1):
        head = (0,) * start + (colour,) * first + (0,) * gap
        found += [head + tail for tail in fillings(rest, length - len(head))]
    return found


def narrow_by_listing(clue, masks):
    """The colours that each cell has in some filling that fits, or None where no filling does."""
    left = [0] * len(masks)
    fits = False
    for filling in fillings(clue, len(masks)):
        if all(mask >> colour & 1 for mask, colour in zip(masks, filling)):
            fits = True
            for i, colour in enumerate(filling):
                left[i] |= 1 << colour
    return tuple(left) if fits else None


def moves_from(clue, masks, ends, i, b):
    """The moves from cell i with block b to come: the next cell and block, and the cells that
    each move colours."""
    length = len(masks)
    moves = []
    if i < length and masks[i] & 1:
        moves.append((i + 1, b, ((i, i + 1, 0),)))
    if b < len(clue):
        size, colour = clue[b]
        end = i + size
        if end <= length and ends[colour][i] >= end:
            same = b + 1 < len(clue) and clue[b + 1][1] == colour
            if not same:
                moves.append((end, b + 1, ((i, end, colour),)))
            elif end < length and masks[end] & 1:
                moves.append((end + 1, b + 1, ((i, end, colour), (end, end + 1, 0))))
    return moves


def runs_allowed(masks, colours):
    """For each colour and cell, where the run of cells that begins there and allows the colour
    ends."""
    ends = {}
    for colour in colours:
        at = [0] * (len(masks) + 1)
        at[len(masks)] = len(masks)
        for i in range(len(masks) - 1, -1, -1):
            allowed = masks[i] >> colour & 1
            at[i] = i if not allowed else max(at[i + 1], i + 1)
        ends[colour] = at
    return ends


def narrow_by_places(clue, masks):
    """The same as `narrow_by_listing`, by a table over cells and blocks."""
    length, blocks = len(masks), len(clue)
    ends = runs_allowed(masks, {colour for _, colour in clue})
    moves = {
        (i, b): moves_from(clue, masks, ends, i, b)
        for i in range(length + 1)
        for b in range(blocks + 1)
    }
    done = {(length, blocks)}
    for i in range(length - 1, -1, -1):
        for b in range(blocks + 1):
            if any((j, c) in done for j, c, _ in moves[i, b]):
                done.add((i, b))
    if (0, 0) not in done:
        return None
    left = [0] * length
    reached = {(0, 0)}
    for i in range(length + 1):
        for b in range(blocks + 1):
            if (i, b) not in reached:
                continue
            for j, c, painted in moves[i, b]:
                if (j, c) in done:
                    reached.add((j, c))
                    for start, end, colour in painted:
                        for k in range(start, end):
                            left[k] |= 1 << colour
    return tuple(left)


@lru_cache(maxsize=200000)
def narrow(clue, masks):
    """The colours that each cell of a line can have, or None where no list fits."""
    if len(masks) <= LISTED_UP_TO:
        return narrow_by_listing(clue, masks)
    return narrow_by_places(clue, masks)


def nothing_excluded(height, width):
    """All sixteen colours in every cell."""
    return [[ALL] * width for _ in range(height)]


def base_of(rows, givens):
    """What givens leave: in a given the picture's colour alone."""
    facts = nothing_excluded(len(rows), len(rows[0]))
    for row, col in givens:
        facts[row][col] = 1 << rows[row][col]
    return facts


def close(clues, facts):
    """The least closed facts over the given ones, or None where some line has no list that fits
    under them."""
    facts = [list(row) for row in facts]
    height, width = len(facts), len(facts[0])
    waiting = names(height, width)
    while waiting:
        line = waiting.pop(0)
        before = tuple(line_of(facts, line))
        after = narrow(clues[line], before)
        if after is None:
            return None
        put_line(facts, line, after)
        axis = 'c' if line[0] == 'r' else 'r'
        waiting += [
            (axis, i)
            for i in range(len(after))
            if after[i] != before[i] and (axis, i) not in waiting
        ]
    return facts


def settled(rows, givens=()):
    """The settled map of a picture with givens, as facts."""
    return close(clues_of(rows), base_of(rows, givens))


def map_rows(facts):
    """The rows of a map as they are printed."""
    return [
        ''.join(letter(m.bit_length() - 1) if m & (m - 1) == 0 else '?' for m in row)
        for row in facts
    ]


def forces(clue, masks, at, colour):
    """Whether no list that fits has the colour at the place."""
    after = narrow(clue, tuple(masks))
    return after is None or not after[at] >> colour & 1
