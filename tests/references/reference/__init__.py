"""A plain second reading of docs/FILE-FORMATS.md and docs/SESSION.md and of what docs/BASE.md says
of definitions, for tests from outside.

Nothing here looks at the program's source or shares a table with it. Everything is written for
being read, not for speed: whole copies, whole lists, small pictures. Pictures are lists of rows of
numbers, and so are the facts: for each cell a mask of the colours left, bit k for colour k.
"""
