"""What a run of the program must write, say and answer."""
import plain_forms
from plain_forms import Fault

from .assessments import Assessment
from .checks import answer
from .lines import clues_of
from .non import read_non
from .pictures import Document, read_ppm
from .search import pictures_with
from .sessions import Disagreement, Output, Session, agree, clue_lines, must_assess, picture_rows


class Run:
    """A run that has ended: its status, what it wrote and what it said on standard error."""

    def __init__(self, status, wrote, said):
        self.status = status
        self.wrote = wrote
        self.said = said

    def must(self, status, wrote, said):
        """The run must have ended so."""
        wanted = (status, wrote, said)
        got = (self.status, self.wrote, self.said)
        agree(got == wanted, f'wanted {cut(wanted)}, got {cut(got)}')


def cut(run):
    """A run, not too long for a message."""
    return tuple(text if isinstance(text, int) else text[:400] for text in run)


def fault_line(kind, fault):
    """The line on standard error for a text that is refused."""
    place = '' if fault.place is None else f' at byte {fault.place}'
    return f'nonobench: {kind} {fault.name}{place}\n'.encode()


def clues_run(run, text):
    """The run without words on a P3 text."""
    try:
        document = read_ppm(text)
    except Fault as fault:
        run.must(1, b'', fault_line('ppm', fault))
        return fault.name
    wanted = ''.join(line + '\n' for line in clue_lines(clues_of(document.rows)))
    run.must(0, wanted.encode(), b'')
    return 'read'


def check_run(run, text, cert, background):
    """The check of a certificate; where it is accepted and the picture is small, a listing says so
    too."""
    line, status = answer(text, cert, background)
    if status:
        run.must(status, b'', f'nonobench: {line}\n'.encode())
        return line.split()[1]
    run.must(status, f'{line}\n'.encode(), b'')
    rows = read_ppm(text, background).rows
    height, width = len(rows), len(rows[0])
    if height * width <= 20:
        base = [[0xFFFF] * width for _ in range(height)]
        for row, col in plain_forms.read_certificate(cert)[1]:
            base[row - 1][col - 1] = 1 << rows[row - 1][col - 1]
        found = pictures_with(clues_of(rows), height, width, base, 2)
        agree(
            found == [rows],
            f'accepted, but the pictures are {[picture_rows(one) for one in found]}',
        )
    return 'accepted'


def opened(run, text, is_non, background):
    """The document that a session opens, or None where the text is refused. A .non without a goal
    opens any picture."""
    try:
        if not is_non:
            return read_ppm(text, background)
        height, width, clues, goal = read_non(text)
    except Fault as fault:
        run.must(1, b'', fault_line('non' if is_non else 'ppm', fault))
        return None
    if goal is None:
        goal = found_picture(run, height, width, clues)
    return goal and Document(255, [(255, 255, 255), (0, 0, 0)], goal)


def found_picture(run, height, width, clues):
    """The picture that was found for clues, told by the `write non` with which such a session
    begins."""
    if run.status == 1:
        run.must(1, b'', b'nonobench: no picture has these clues\n')
        base = [[0xFFFF] * width for _ in range(height)]
        agree(not pictures_with(clues, height, width, base, 1), 'a picture has these clues')
        return None
    try:
        end = run.wrote.index(b'goal ')
        goal = read_non(run.wrote[: run.wrote.index(b'\n', end) + 1])[3]
    except (Fault, ValueError):
        raise Disagreement('no .non was written') from None
    agree(goal is not None and clues_of(goal) == clues, 'the picture found does not have the clues')
    return goal


class Puzzle:
    """A puzzle to be assessed: its text, or None where there is no such file, its format, and what
    lies beside it."""

    def __init__(self, text, background=None, is_non=False, published=None, cert=None):
        self.text, self.background, self.is_non, self.published, self.cert = (
            text,
            background,
            is_non,
            published,
            cert,
        )

    def document(self):
        """The picture, or the goal."""
        if not self.is_non:
            return read_ppm(self.text, self.background)
        goal = read_non(self.text)[3]
        if goal is None:
            raise Fault('NoGoal')
        return Document(255, [(255, 255, 255), (0, 0, 0)], goal)

    def must_be_told(self, output, allowance):
        """The next lines must be its assessment, or the line why it is refused. Answers how it
        ends."""
        if self.text is None:
            output.must_lines('refused read')
            return 'unread'
        kind, unit = 'non' if self.is_non else 'ppm', 'byte'
        try:
            document = self.document()
            kind, unit = 'givens', 'line'
            if self.published is not None:
                places = plain_forms.read_published(
                    plain_forms.Puzzle(document.rows), self.published
                )
                document.givens = {(row - 1, col - 1) for row, col in places}
            session = Session(document, 1, most_splits(document))
            kind = 'certificate'
            assessment = Assessment(
                document, lambda givens: session.verdict_on(givens, allowance), self.cert
            )
        except Fault as fault:
            output.must_lines(
                f'refused {kind} {fault.name}'
                + ('' if fault.place is None else f' at {unit} {fault.place}')
            )
            return f'{kind} {fault.name}'
        must_assess(output, assessment, session.must_be_other)
        return output.text[: output.at].split()[-1].decode()


def assess_run(run, puzzles, allowance):
    """The assessment of one puzzle or of several."""
    output, ends = Output(run.wrote), []
    for number, puzzle in enumerate(puzzles, 1):
        if len(puzzles) > 1:
            output.must_lines(f'puzzle {number}')
        ends.append(puzzle.must_be_told(output, allowance))
    output.end()
    if 'unread' in ends:
        run.must(3, run.wrote, b'nonobench: read failed\n')
    else:
        run.must(0 if set(ends) == {'fit'} else 1, run.wrote, b'')
    if len(puzzles) > 1:
        return 'several'
    return (
        f'{ends[0]}, with a certificate'
        if puzzles[0].cert is not None and ends[0] in ('fit', 'unfit')
        else ends[0]
    )


def most_splits(document):
    """How many splits the reference makes in a part before it gives up."""
    return 2000 if len(document.rows) * len(document.rows[0]) <= 40 else 40


def work_run(run, text, commands, is_non=False, background=None, depth=100):
    """A session on a picture or a puzzle."""
    document = opened(run, text, is_non, background)
    if document is None:
        return 'refused'
    session = Session(document, depth, most_splits(document))
    session.run(commands, Output(run.wrote))
    run.must(0, run.wrote, b'')
    return 'replayed'
