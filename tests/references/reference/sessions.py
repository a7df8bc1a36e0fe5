"""A session replayed: what each line must print, and where the text is free, whether it is true."""
import re

import plain_forms
from plain_forms import Fault

from .assessments import Assessment, Solving, read_assessment
from .commands import asks, command_of
from .designs import EDITS, History
from .lines import base_of, clue_text, forces, letter, line_of, map_rows, mask_letters
from .non import lines_of, write_non
from .pictures import write_ppm
from .search import Keeper, Scene, is_other

REASON = re.compile(rb'by ([rc]) ([1-9][0-9]*)(?: given((?: [1-9][0-9]*=[.a-o]+)+))?')


class Disagreement(Exception):
    """The program said something else than it must."""


def agree(condition, message):
    """Ends the case where a condition does not hold."""
    if not condition:
        raise Disagreement(message)


class Output:
    """What a program wrote, read from the front."""

    def __init__(self, text):
        self.text = text
        self.at = 0

    def line(self):
        """The next line without its end."""
        end = self.text.find(b'\n', self.at)
        agree(end >= 0, 'a line without a line feed, or none')
        line = self.text[self.at : end]
        self.at = end + 1
        return line

    def must(self, text):
        """The next bytes must be these."""
        said = self.text[self.at : self.at + len(text)]
        agree(said == text, f'wanted {text[:300]!r}, got {said[:300]!r}')
        self.at += len(text)

    def must_lines(self, *lines):
        """The next lines must be these."""
        self.must(''.join(line + '\n' for line in lines).encode())

    def end(self):
        """Nothing may be left."""
        agree(self.at == len(self.text), f'more than was asked for: {self.text[self.at:][:300]!r}')


def picture_rows(rows):
    """The rows of a picture as they are printed."""
    return [''.join(letter(colour) for colour in row) for row in rows]


def clue_lines(clues):
    """The lines of all clues as they are printed."""
    return [f'{axis} {at + 1}: {clue_text(clue)}' for (axis, at), clue in clues.items()]


def must_assess(output, assessment, must_be_other):
    """The next lines must be an assessment. Which other picture it shows is free, and which
    certificate its grade is taken from: so splits and depth may be any that one can have, and none
    need be found. Answers whether none was.
    """
    found = read_assessment(output.text, output.at)
    agree(found, f'no assessment: {output.text[output.at:output.at + 300]!r}')
    other = found['other'].decode().splitlines()
    if assessment.word == 'ambiguous':
        must_be_other(other)
    guesses = found['splits'] and (int(found['splits']), int(found['depth']))
    output.must_lines(*assessment.lines(other, guesses))
    is_guessed = assessment.word == 'unique' and assessment.open > 0
    agree(
        not is_guessed or not guesses or 1 <= guesses[1] <= guesses[0],
        f'splits and depth of no certificate: {guesses}',
    )
    return is_guessed and not guesses


class Session:
    """A bench as the definitions have it."""

    def __init__(self, document, depth=100, most=2000):
        self.history = History(document, depth)
        self.allowance = None
        self.most = most
        self.keeper = None
        self.ungraded = 0  # assessments whose grade is unknown

    @property
    def document(self):
        """The present document."""
        return self.history.document

    def kept(self):
        """What is known of the parts of the present picture."""
        if self.keeper is None:
            self.keeper = Keeper(Scene(self.document.rows, self.document.givens))
        return self.keeper

    def scene(self):
        """The present picture with its clues and map."""
        return self.kept().scene

    def moved(self):
        """Carries what is known to the document that is now the present one."""
        if self.keeper is not None:
            self.keeper = self.keeper.carried(Scene(self.document.rows, self.document.givens))

    def run(self, text, output):
        """Goes along an input and what was written for it."""
        for line in lines_of(text):
            if asks(line):
                try:
                    self.answer(line, output)
                except Disagreement as found:
                    raise Disagreement(f'{line[:210]!r}: {found}') from None
        output.end()

    def answer(self, line, output):
        """One line that asks for something."""
        try:
            key, values = command_of(line)
            if key in EDITS:
                self.history.edit(key, values)
                self.moved()
                output.must_lines('ok')
            else:
                getattr(self, 'say_' + '_'.join(key))(output, *values)
        except Fault as fault:
            output.must_lines(f'refused: {fault.name}')

    def say_undo(self, output):
        """An edit taken back."""
        self.history.undo()
        self.moved()
        output.must_lines('ok')

    def say_redo(self, output):
        """An edit made again."""
        self.history.redo()
        self.moved()
        output.must_lines('ok')

    def say_allow(self, output, splits):
        """Another allowance."""
        self.allowance = splits
        output.must_lines('ok')

    def say_clues(self, output):
        """The clues."""
        output.must_lines(*clue_lines(self.scene().clues))

    def say_map(self, output):
        """The map."""
        output.must_lines(*map_rows(self.scene().facts))

    def say_verdict(self, output):
        """The verdict, with another picture where there is one."""
        word = self.kept().judge(self.allowance, self.most)
        if word == 'undecided':
            output.must_lines(f'undecided {self.allowance}')
            return
        output.must_lines(word)
        if word == 'ambiguous':
            self.other_picture(output)

    def other_picture(self, output):
        """The rows of another picture, whichever it is."""
        self.must_be_other([output.line().decode('latin-1') for _ in self.document.rows])

    def must_be_other(self, said):
        """These rows must be another picture."""
        rows = self.document.rows
        agree(all(re.fullmatch('[.a-o]+', row) for row in said), f'no picture: {said}')
        other = [['.abcdefghijklmno'.index(byte) for byte in row] for row in said]
        agree(is_other(rows, self.document.givens, other), f'not another picture: {said}')

    def say_report(self, output):
        """The report."""
        document, scene = self.document, self.scene()
        rows = document.rows
        lines = [
            f'size {len(rows)} {len(rows[0])}',
            f'colours {len(document.colours)} maxval {document.maxval}',
        ]
        lines += ['%s %d %d %d' % (letter(k), *triple) for k, triple in enumerate(document.colours)]
        lines += ['picture'] + picture_rows(rows)
        lines += [f'given {row + 1} {col + 1}' for row, col in sorted(document.givens)]
        lines += ['clues'] + clue_lines(scene.clues) + ['map'] + map_rows(scene.facts)
        lines += [f'open {sum(len(part) for part in scene.parts)}']
        lines += [f'verdict {self.kept().judge(self.allowance, self.most)}']
        lines += [f'history {len(self.history.past)} {len(self.history.future)}']
        output.must_lines(*lines)

    def say_why(self, output, row, col, colour):
        """Why a colour is not in a cell."""
        scene = self.scene()
        if row >= len(scene.rows) or col >= len(scene.rows[0]):
            raise Fault('Place')
        if scene.facts[row][col] >> colour & 1:
            output.must_lines('possible')
        elif not base_of(scene.rows, scene.givens)[row][col] >> colour & 1:
            output.must_lines('given')
        else:
            said = output.line()
            reason = REASON.fullmatch(said)
            agree(reason, f'no reason: {said[:300]!r}')
            self.is_reason(reason, row, col, colour)

    def is_reason(self, reason, row, col, colour):
        """A line, and premises of it that are known, force the exclusion, and none can be left
        out."""
        scene = self.scene()
        line = (reason.group(1).decode(), int(reason.group(2)) - 1)
        crossing = col if line[0] == 'r' else row
        agree(
            line == (('r', row) if line[0] == 'r' else ('c', col)),
            'the line is not through the cell',
        )
        known = line_of(scene.facts, line)
        masks = [0xFFFF] * len(known)
        before = 0
        for premise in (reason.group(3) or b'').split():
            place, letters = premise.split(b'=')
            at = int(place) - 1
            mask = sum(1 << '.abcdefghijklmno'.index(chr(byte)) for byte in letters)
            agree(
                mask_letters(mask) == letters.decode(), f'letters not by rising number: {letters!r}'
            )
            agree(before <= at < len(known), f'a place out of order or outside: {at + 1}')
            agree(known[at] & ~mask == 0, f'a premise that is not known at {at + 1}')
            masks[at] = mask
            before = at + 1
        agree(masks[crossing] >> colour & 1, 'the exclusion is among the premises')
        agree(forces(scene.clues[line], masks, crossing, colour), 'the premises do not force it')
        for at in range(len(masks)):
            if masks[at] != 0xFFFF or b' %d=' % (at + 1) in (reason.group(3) or b''):
                fewer = masks[:at] + [0xFFFF] + masks[at + 1 :]
                agree(
                    not forces(scene.clues[line], fewer, crossing, colour),
                    f'the premise at {at + 1} can be left out',
                )

    def say_certify(self, output):
        """A certificate, checked by the reference, or that there is another picture. What it finds
        of the parts is kept."""
        if self.kept().judge(None, self.most) == 'ambiguous':
            output.must_lines('ambiguous')
            return
        givens = sorted(self.document.givens)
        form = 'nonocert 2' if givens else 'nonocert 1'
        output.must_lines(form)
        output.must_lines(*(f'given {row + 1} {col + 1}' for row, col in givens))
        puzzle = plain_forms.Puzzle(self.document.ordered().rows)
        cells = [puzzle.cell(row + 1, col + 1) for row, col in givens]
        tree = plain_forms.start(puzzle, form, cells)
        while tree.places:
            said = output.line()
            steps = plain_forms.read_line(said.decode('latin-1'), form)
            agree(steps is not None, f'no line of a certificate: {said[:300]!r}')
            fault = tree.step(*steps[0])
            agree(fault is None, f'{said!r} is {fault}')

    def say_path(self, output):
        """The path of line logic."""
        must_path(output, Solving(self.document.rows, self.document.givens))

    def say_assess_off(self, output):
        """The assessment without an allowance."""
        self.assess(output, None)

    def say_assess(self, output):
        """The assessment under the allowance that is set, or under 10000 splits."""
        self.assess(output, 10000 if self.allowance is None else self.allowance)

    def assess(self, output, allowance):
        """An assessment. What was found before does not count."""
        assessment = Assessment(self.document, lambda givens: self.verdict_on(givens, allowance))
        self.ungraded += must_assess(output, assessment, self.must_be_other)

    def verdict_on(self, givens, allowance):
        """The verdict on the picture with some givens."""
        return Keeper(Scene(self.document.rows, givens)).judge(allowance, self.most)

    def say_write_ppm(self, output):
        """The picture as a P3 text."""
        output.must(write_ppm(self.document))

    def say_write_non(self, output):
        """The picture as a .non text."""
        output.must(write_non(self.document.rows))


def must_path(output, solving):
    """The next lines must be the path: each look as far as it is fixed, and premises of it of which
    none can be left out."""
    for text, line, before, after in solving.path:
        front, _, words = output.line().decode().partition(' given ')
        agree(front == text, f'{front!r} is {text!r}')
        must_need(solving.clues[line], before, after, words.split())
    output.must_lines(f'open {solving.open()}')


def must_need(clue, before, after, words):
    """The premises of a look force all that it excludes, and none of them can be left out."""
    wanted = [
        (at, colour)
        for at, mask in enumerate(before)
        for colour in range(16)
        if (mask & ~after[at]) >> colour & 1
    ]
    masks, places = [0xFFFF] * len(before), [int(word.split('=')[0]) - 1 for word in words]
    agree(places == sorted(set(places)), f'places out of order: {words}')
    for at, word in zip(places, words):
        agree(0 <= at < len(before), f'a place outside: {word}')
        agree(word == f'{at + 1}={mask_letters(before[at])}', f'{word} is not what is left there')
        masks[at] = before[at]
    agree(force_all(clue, masks, wanted), f'the premises do not force it: {words}')
    for at in places:
        fewer = [*masks[:at], 0xFFFF, *masks[at + 1 :]]
        agree(not force_all(clue, fewer, wanted), f'the premise at {at + 1} can be left out')


def force_all(clue, masks, wanted):
    """Whether a line forces some exclusions."""
    return all(forces(clue, masks, at, colour) for at, colour in wanted)
