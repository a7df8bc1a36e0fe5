"""Another picture: by a listing of all pictures, and part by part with the cost that the
definitions give."""
from .lines import clues_of, close, fillings, line_of, narrow, names


class TooMuch(Exception):
    """A search that takes longer than the reference is asked to wait for."""


def is_other(rows, givens, other):
    """Whether a picture is another one: of the size, with the clues, the givens' colours, and not
    the picture itself."""
    return (
        len(other) == len(rows)
        and all(len(row) == len(rows[0]) for row in other)
        and other != rows
        and clues_of(other) == clues_of(rows)
        and all(other[r][c] == rows[r][c] for r, c in givens)
    )


def pictures_with(clues, height, width, base, limit=None):
    """All pictures with these clues that fill the base, row by row; each start of columns is held
    against its clue."""
    found = []

    def go_on(rows):
        if limit is not None and len(found) == limit:
            return
        if len(rows) == height:
            found.append([list(row) for row in rows])
            return
        at = len(rows)
        for filling in fillings(clues['r', at], width):
            if all(base[at][i] >> colour & 1 for i, colour in enumerate(filling)) and can_go_on(
                rows + [filling]
            ):
                go_on(rows + [filling])

    def can_go_on(rows):
        for col in range(width):
            masks = [1 << row[col] for row in rows] + [
                base[i][col] for i in range(len(rows), height)
            ]
            if narrow(clues['c', col], tuple(masks)) is None:
                return False
        return True

    go_on([])
    return found


def open_cells(facts):
    """The cells with more than one colour left, in row order."""
    return [
        (r, c) for r, row in enumerate(facts) for c, mask in enumerate(row) if mask & (mask - 1)
    ]


def parts_of(facts):
    """The parts of the open cells, each in row order, by first cell."""
    parts = []
    waiting = open_cells(facts)
    while waiting:
        part = [waiting.pop(0)]
        for cell in part:
            near = [other for other in waiting if other[0] == cell[0] or other[1] == cell[1]]
            part += near
            waiting = [other for other in waiting if other not in near]
        parts.append(sorted(part))
    return parts


def through(part):
    """The lines through the cells of a part."""
    return {('r', row) for row, _ in part} | {('c', col) for _, col in part}


def search_part(clues, facts, rows, part, most):
    """Another filling of a part or None, and the splits that its search counts. None is found
    behind `most` splits."""
    cells = set(part)
    alone = [
        [facts[r][c] if (r, c) in cells else 1 << rows[r][c] for c in range(len(rows[0]))]
        for r in range(len(rows))
    ]
    waiting = [alone]
    splits = 0
    while waiting:
        closed = close(clues, waiting.pop(0))
        if closed is None:
            continue
        unsure = open_cells(closed)
        if not unsure:
            filling = [[mask.bit_length() - 1 for mask in row] for row in closed]
            if filling != rows:
                return filling, splits
            continue
        splits += 1
        if splits > most:
            raise TooMuch()
        row, col = unsure[0]
        branches = []
        for colour in range(16):
            if closed[row][col] >> colour & 1:
                branch = [list(cells_of) for cells_of in closed]
                branch[row][col] = 1 << colour
                branches.append(branch)
        waiting = branches + waiting
    return None, splits


class Scene:
    """A picture with its clues, its givens and its settled map."""

    def __init__(self, rows, givens):
        self.rows = [list(row) for row in rows]
        self.givens = set(givens)
        self.clues = clues_of(rows)
        base = [
            [1 << rows[r][c] if (r, c) in self.givens else 0xFFFF for c in range(len(rows[0]))]
            for r in range(len(rows))
        ]
        self.facts = close(self.clues, base)
        self.parts = parts_of(self.facts)

    def same_line(self, other, line):
        """Whether a line has the same clue, colours left and cells in another scene."""
        return (
            line in self.clues
            and line in other.clues
            and self.clues[line] == other.clues[line]
            and line_of(self.facts, line) == line_of(other.facts, line)
            and line_of(self.rows, line) == line_of(other.rows, line)
        )

    def lines(self):
        """The names of all lines."""
        return names(len(self.rows), len(self.rows[0]))


UNKNOWN, NO, YES = 'unknown', 'no other filling', 'another filling'


class Keeper:
    """What is known of the other fillings of the parts of a scene. Fillings themselves are not
    kept: they are free."""

    def __init__(self, scene):
        self.scene = scene
        self.known = [UNKNOWN for _ in scene.parts]

    def carried(self, scene):
        """What is known in another scene: of a part whose lines are all the same, what was known of
        it."""
        keeper = Keeper(scene)
        for i, part in enumerate(scene.parts):
            if all(scene.same_line(self.scene, line) for line in through(part)):
                keeper.known[i] = self.known[self.scene.parts.index(part)]
        return keeper

    def judge(self, allowance, most):
        """'unique', 'ambiguous' or 'undecided'; what the searches find is kept."""
        if YES in self.known:
            return 'ambiguous'
        for i, part in enumerate(self.scene.parts):
            if self.known[i] == UNKNOWN:
                found = self.search(part, allowance, most)
                if found is None:
                    return 'undecided'
                self.known[i] = found
            if self.known[i] == YES:
                return 'ambiguous'
        return 'unique'

    def search(self, part, allowance, most):
        """What a search of a part says: NO, YES, or None where it costs more than is allowed."""
        scene = self.scene
        bound = most if allowance is None else min(allowance, most)
        try:
            other, _ = search_part(scene.clues, scene.facts, scene.rows, part, bound)
        except TooMuch:
            if allowance is not None and allowance <= most:
                return None
            raise
        return NO if other is None else YES
