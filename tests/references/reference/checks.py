"""What a check of a certificate answers."""
import plain_forms
from plain_forms import Fault

from .pictures import read_ppm


def answer(picture, text, background):
    """What is printed, without the name of the program, and the exit status."""
    kind, unit = 'ppm', 'byte'
    try:
        rows = read_ppm(picture, background).rows
        kind, unit = 'certificate', 'line'
        givens, _ = plain_forms.check(plain_forms.Puzzle(rows), text)
    except Fault as fault:
        return f'{kind} {fault.name} at {unit} {fault.place}', 1
    return f'certificate accepted, givens {givens}' if givens else 'certificate accepted', 0
