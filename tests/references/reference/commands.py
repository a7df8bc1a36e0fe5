"""The commands of a session: lines, words and their faults."""
import re

from plain_forms import Fault

MOST_BYTES = 200
PLACE, SAMPLE, COLOUR, SPLITS = 'place', 'sample', 'colour', 'splits'
TABLE = {
    ('paint',): (PLACE, PLACE, COLOUR),
    ('fill',): (PLACE, PLACE, PLACE, PLACE, COLOUR),
    ('recolour',): (COLOUR, COLOUR),
    ('insert', 'row'): (PLACE,),
    ('insert', 'column'): (PLACE,),
    ('delete', 'row'): (PLACE,),
    ('delete', 'column'): (PLACE,),
    ('swap', 'row'): (PLACE, PLACE),
    ('swap', 'column'): (PLACE, PLACE),
    ('colour', 'add'): (SAMPLE, SAMPLE, SAMPLE),
    ('colour', 'set'): (COLOUR, SAMPLE, SAMPLE, SAMPLE),
    ('pin',): (PLACE, PLACE),
    ('unpin',): (PLACE, PLACE),
    ('undo',): (),
    ('redo',): (),
    ('clues',): (),
    ('map',): (),
    ('verdict',): (),
    ('report',): (),
    ('why',): (PLACE, PLACE, COLOUR),
    ('certify',): (),
    ('assess',): (),
    ('assess', 'off'): (),
    ('path',): (),
    ('write', 'ppm'): (),
    ('write', 'non'): (),
    ('allow',): (SPLITS,),
}
TWO_WORDS = {words[0] for words in TABLE if len(words) == 2}
FIRST_WORDS = {words[0] for words in TABLE}


def asks(line):
    """Whether a line asks for anything."""
    return len(line) > MOST_BYTES or bool(line.strip(b' \t'))


def value_of(kind, word):
    """The value of a word, places from 0."""
    if kind == COLOUR:
        if len(word) != 1 or word not in b'.abcdefghijklmno':
            raise Fault('BadColour')
        return '.abcdefghijklmno'.index(word.decode())
    if kind == SPLITS and word == b'off':
        return None
    if not re.fullmatch(rb'[0-9]{1,5}', word):
        raise Fault('BadNumber')
    value = int(word)
    if kind == PLACE and not 1 <= value <= 256 or kind == SAMPLE and value > 65535:
        raise Fault('BadNumber')
    return value - 1 if kind == PLACE else value


def command_of(line):
    """The words that name a command and its values, or the first fault of the line."""
    if len(line) > MOST_BYTES:
        raise Fault('LongLine')
    words = [word for word in re.split(rb'[ \t]+', line) if word]
    name = words[0].decode('latin-1')
    if name not in FIRST_WORDS:
        raise Fault('UnknownWord')
    key = (name,)
    if name in TWO_WORDS and (len(words) > 1 or key not in TABLE):
        if len(words) < 2:
            raise Fault('WordCount')
        key = (name, words[1].decode('latin-1'))
        if key not in TABLE:
            raise Fault('UnknownWord')
    kinds = TABLE[key]
    rest = words[len(key) :]
    if len(rest) != len(kinds):
        raise Fault('WordCount')
    return key, [value_of(kind, word) for kind, word in zip(kinds, rest)]
