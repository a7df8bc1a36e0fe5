"""Tests of Web Paint-by-Number's XML, as nonobench-audit reads it.

Puzzles and what is expected of them are worked by hand. defusedxml is needed.
"""

import re
import sys
from pathlib import Path

sys.path.insert(0, str(Path(__file__).resolve().parent))
from audit_parts import AMBIGUOUS, UNIQUE, Case, webpbn  # noqa: E402

from nonobench.collection import Question, judge  # noqa: E402

HERE = Path(__file__).resolve().parent
SAVED = '<solution type="saved" id="{}"><image>|X?||?{}|</image></solution>'
SEVERAL = "several goals, and they are different pictures"
TEXT = "a text of the puzzle has elements in it"
CLUE = '<clues type="rows"><line><count>2</count></line><line/></clues>'
OWN = (
    '<clues type="rows"><line><count>1</count></line><line><count'
    ' color="red">1</count></line></clues>'
)
OTHER_GOAL = "<solution><image>|.X||r.|</image></solution>"


def row_of(text, name="one.xml", **more):
    """The row of an XML text."""
    data = text if isinstance(text, bytes) else text.encode()
    return judge([Question(name, data, **more)])[0].row


class Reading(Case):
    """One puzzle."""

    def shown(self, text):
        """Picture, palette and what tells the background."""
        row = row_of(text)
        return row.get("error") or (row["picture"], row["palette"], row["background_from"])

    def test_goals(self):
        wanted = ("a./.b", ["ffffff", "000000", "ff0000"], "XML")
        self.assertEqual(self.shown(webpbn(UNIQUE)), wanted)
        self.assertEqual(row_of(webpbn(UNIQUE, "A &lt;b&gt; title"))["title"], "A <b> title")
        # One goal twice, beside a solution that is none.
        goal = "<solution><image>|X.||.r|</image></solution>"
        other = '<solution type="solution"><image>|.X||r.|</image></solution>'
        self.assertEqual(self.shown(webpbn(UNIQUE, more=goal + other)), wanted)

    def test_givens(self):
        row = row_of(webpbn(AMBIGUOUS, more=SAVED.format("givens", "?")))
        self.assertEqual((row["givens"], row["verdict"]), ([[1, 1]], "unique"))
        row = row_of(webpbn(AMBIGUOUS, more=SAVED.format("mine", "?")))
        self.assertEqual(row["verdict"], "ambiguous")
        # A file of givens takes their place, also an empty one.
        text = webpbn(AMBIGUOUS, more=SAVED.format("givens", "?"))
        self.assertEqual(row_of(text, givens=b"given 2 2\n")["givens"], [[2, 2]])
        self.assertNotIn("givens", row_of(text, givens=b""))
        row = row_of(webpbn(AMBIGUOUS, more=SAVED.format("givens", ".")))
        self.assertEqual(row["error"], "a given has another colour than the solution")

    def test_signs_and_colours(self):
        # A backslash takes the bar as a sign, and a sign in brackets is that sign.
        text = (
            '<puzzle backgroundcolor="blue"><color name="blue" char="-">00f</color><color'
            ' name="bar" char="|">#102030</color><solution><image>|-\\|| |[-]\\||</image>'
            "</solution></puzzle>"
        )
        self.assertEqual(self.shown(text), (".a/.a", ["0000ff", "102030"], "XML"))
        # Two that are declared alike stay two, as near as they can be.
        colours = "".join(
            f'<color name="{name}" char="{name}">{triple}</color>'
            for name, triple in (("a", "100000"), ("b", "100001"), ("c", "100000"), ("d", "100000"))
        )
        text = f"<puzzle>{colours}<solution><image>|abcd|</image></solution></puzzle>"
        self.assertEqual(self.shown(text)[1], ["ffffff", "100000", "100001", "100002", "100003"])

    def test_clues_only(self):
        clues = (
            '<clues type="columns"><line><count>1</count></line><line/></clues><clues'
            ' type="rows"><line><count>1</count></line></clues>'
        )
        self.assertEqual(
            self.shown(f"<puzzle>{clues}</puzzle>"), ("a.", ["ffffff", "000000"], "XML")
        )
        white = 'backgroundcolor="black" defaultcolor="white"'
        self.assertEqual(self.shown(f"<puzzle {white}>{clues}</puzzle>")[1], ["000000", "ffffff"])
        two = clues.replace(
            "<count>1</count></line></clues>", '<count color="red">1</count></line></clues>'
        )
        self.assertRegex(self.shown(f"<puzzle>{two}</puzzle>"), "several colours and no solution")
        given = f"<puzzle>{clues}{SAVED.format('givens', '?')}</puzzle>"
        self.assertEqual(self.shown(given), "the puzzle has givens and no solution")
        for part in ({"givens": b"given 1 1\n"}, {"background": b"white"}):
            error = row_of(f"<puzzle>{clues}</puzzle>", **part)["error"]
            self.assertEqual(error, "it has clues only: no background or givens")
        none = clues.replace('type="rows"><line><count>1', 'type="rows"><line><count>2')
        self.assertIn("error", row_of(f"<puzzle>{none}</puzzle>"))

    def test_backgrounds_that_are_named(self):
        row = row_of(webpbn(UNIQUE), background=b"255,0,0")
        self.assertEqual((row["background"], row["background_from"]), ("ff0000", "named"))

    def test_as_the_page_writes_it(self):
        # Two colours, a black given, and clues.
        row = row_of((HERE / "page.xml").read_bytes())
        found = [row[name] for name in ("picture", "givens", "title")]
        self.assertEqual(found, ["a./.a", [[1, 1]], "Given & taken"])

    def test_white_space(self):
        """Around colours, clues and rows there may be that of XML, and no other."""
        clues = OWN.replace("<count>1", "<count> 1")
        text = webpbn(UNIQUE, more=clues)
        for old, why in (("f00", "hexadecimal"), (" 1", "number"), ("||", "bars")):
            self.assertEqual(text.count(old), 1)
            for sign in (" ", "\t", "\r\n", "\u00a0", "\u2003", "\u0085", "\ufeff"):
                new = f"|{sign}|" if old == "||" else f"{sign}{old.strip()}{sign}"
                error = row_of(text.replace(old, new)).get("error", "")
                with self.subTest((old, sign)):
                    self.assertRegex(error, why if ord(sign[0]) > 127 else "^$")

    def test_what_is_refused(self):
        two = '</color><color name="rose" char="r">f08</color>'
        blue = '<puzzle type="grid" backgroundcolor="blue"'
        second = '<solution type="solution"><image>|.X||r.|</image></solution></puzzle>'
        same = '<puzzle backgroundcolor="black">'
        clues = "".join(
            f'<clues type="{axis}"><line><count>1</count></line></clues>'
            for axis in ("rows", "columns")
        )
        for text, why in (
            (webpbn(UNIQUE, more=CLUE), "the clues of the rows are not those of the solution"),
            (webpbn(UNIQUE, kind="triddler"), "of the type triddler"),
            (webpbn(UNIQUE).replace("f00", "red"), "not three or six hexadecimal digits"),
            (webpbn(UNIQUE).replace("|X.|", "|X?|"), "'\\?', which is not a colour"),
            (webpbn(UNIQUE).replace("|X.|", "|X.."), "is not between bars"),
            (webpbn(UNIQUE).replace("|X.|", "|\n.|"), "is not between bars"),
            (webpbn(UNIQUE).replace("|X.|", "|X|"), "several lengths"),
            (webpbn(["." * 121]), "larger than 120 by 120"),
            (webpbn(UNIQUE).replace('<puzzle type="grid"', blue), "background of the puzzle"),
            (
                webpbn(UNIQUE).replace("</color>", two),
                "two colours of the puzzle have the sign 'r'",
            ),
            ("<puzzle/>", "neither a solution nor all clues"),
            (f"{same}{clues}</puzzle>", "clues in the colour of its background"),
            (f'<puzzle defaultcolor="ink">{clues}</puzzle>', "in a colour that it does not have"),
            (webpbn(UNIQUE, more=OTHER_GOAL), SEVERAL),
            (webpbn(UNIQUE).replace('"goal"', '"solution"').replace("</puzzle>", second), SEVERAL),
            (
                webpbn(UNIQUE).replace('char="r"', 'char="?"').replace("r|", "?|"),
                "has the sign '\\?', which stands for a cell of any colour",
            ),
            # A browser shows what stands behind an element within a text, and nothing says which of
            # two it shows.
            (webpbn(UNIQUE).replace("|X.|", "|X.|<b/>"), TEXT),
            (webpbn(UNIQUE).replace("f00", "f00<b/>"), TEXT),
            (webpbn(UNIQUE, more=CLUE.replace("<count>2", "<count>1<b/>2")), TEXT),
            (
                webpbn(UNIQUE).replace("<image>", "<image>|.X||r.|</image><image>"),
                "the puzzle has the image of a solution twice",
            ),
            (webpbn(UNIQUE, more=OWN + CLUE), "the puzzle has the clues of the rows twice"),
            (
                webpbn(UNIQUE, more=SAVED.format("givens", "?") * 2),
                "the puzzle has its givens twice",
            ),
        ):
            with self.subTest(why):
                self.assertRegex(row_of(text).get("error", ""), why)


class Texts(Case):
    """Texts of XML that are no puzzles, or that are read in two ways."""

    def test_what_is_refused(self):
        typed = '<?xml version="1.0"?><!DOCTYPE pbn SYSTEM "https://webpbn.com/pbn-0.3.dtd">'
        goal, other = (
            "<solution{}><image>{}</image></solution>".format(*words)
            for words in ((" xmlns='x'", "|X.||.X|"), ("", "|XX||.X|"))
        )
        laughs = "".join(f'<!ENTITY a{at} "{f"&a{at - 1};" * 10}">' for at in range(1, 10))
        own = "the XML has declarations of its own"
        for text, why in (
            (typed + webpbn(UNIQUE), ""),
            ("\ufeff" + webpbn(UNIQUE), ""),
            (f"<puzzleset>{webpbn(UNIQUE)}</puzzleset>", ""),
            ("<html/>", "the XML has no puzzle"),
            ("<svg/>", "this is SVG: convert it to PNG"),
            ("<svg xmlns='http://www.w3.org/2000/svg'/>", "this is SVG: convert it to PNG"),
            ("<puzzle>", "the XML cannot be read"),
            (webpbn(UNIQUE).encode("utf-16"), "it is UTF-16: save it as UTF-8"),
            (webpbn(UNIQUE, "\xe9").encode("latin-1"), "the XML is not UTF-8"),
            (f'<!DOCTYPE a [<!ENTITY a "ha">{laughs}]>' + webpbn(UNIQUE, "&a9;"), own),
            ('<!DOCTYPE a [<!ENTITY a SYSTEM "file:///etc/passwd">]>' + webpbn(UNIQUE, "&a;"), own),
            ('<!DOCTYPE a [<!ATTLIST a b CDATA "c">]>' + webpbn(UNIQUE), own),
            (
                f'<!DOCTYPE a SYSTEM "b>{webpbn(AMBIGUOUS, kind="").replace(chr(34), chr(39))}">',
                own,
            ),
            (typed + webpbn(UNIQUE, "&b;"), "the XML cannot be read: undefined entity"),
            (f"<puzzle>{goal}{other}</puzzle>", "the XML has a namespace"),
            (f"<a>{webpbn(UNIQUE)}</a>", ""),
            (f"<a><b>{webpbn(UNIQUE)}</b></a>", "the XML has no puzzle"),
            (
                webpbn(UNIQUE, more="<puzzle/>"),
                "the XML has a puzzle that is not directly in its set",
            ),
        ):
            with self.subTest(text[:60]):
                self.assertRegex(row_of(text).get("error", ""), f"^{why}" if why else "^$")

    def test_a_set(self):
        puzzles = [
            webpbn(UNIQUE, "One"),
            webpbn(AMBIGUOUS, "Two \xe9", SAVED.format("givens", "?")),
            "<puzzle/>",
        ]
        self.put("set.xml", f"<puzzleset>{''.join(puzzles)}</puzzleset>")
        row = self.rows("site", status=1)["set.xml"]
        wanted = "this has 3 puzzles: nonobench-audit unpack SET.xml DIR writes a file for each"
        self.assertEqual(row["error"], wanted)
        done = self.run_audit("unpack", "site/set.xml", "out", status=0)
        self.assertEqual(done.stdout, "3 puzzles in out\n")
        rows = self.rows("out", status=1)
        self.assertEqual(list(rows), ["set-1.xml", "set-2.xml", "set-3.xml"])
        self.assertEqual([row.get("title") for row in rows.values()], ["One", "Two \xe9", None])
        self.assertEqual([row["fit"] for row in rows.values()], [True, True, False])
        self.assertEqual(rows["set-2.xml"]["givens"], [[1, 1]])
        self.run_audit("unpack", "site/set.xml", "out", status=2)
        self.put("bad.xml", "<puzzle>")
        said = self.run_audit("unpack", "site/bad.xml", "other", status=3).stderr
        self.assertTrue(re.search("bad.xml: the XML cannot be read", said), said)

    def test_what_an_editor_saved_otherwise(self):
        non = "width 1\nheight 1\nrows\n1\ncolumns\n1\n"
        for name, text in (("x.non", non), ("x.ppm", "P3 1 1 1 0 0 0")):
            mark = row_of(text.encode("utf-8-sig"), name)["error"]
            self.assertEqual(mark, "it begins with a byte order mark: save it without")
            self.assertEqual(
                row_of(text.encode("utf-16"), name)["error"], "it is UTF-16: save it as UTF-8"
            )

    def test_non(self):
        clues = "width 2\nheight 2\nrows\n1\n1\ncolumns\n1\n1\n"
        row = row_of(clues, "x.NON")
        self.assertEqual((row["verdict"], row["background"]), ("ambiguous", "ffffff"))
        row = row_of(f'{clues}goal "1001"\n', "x.non", givens=b"given 1 1\n")
        self.assertEqual((row["verdict"], row["picture"]), ("unique", "a./.a"))
        self.assertIn("NoGoal", row_of(clues, "x.non", givens=b"given 1 1\n")["error"])
        row = row_of(clues, "x.non", background=b"0,0,0")
        self.assertEqual(row["error"], "a .non puzzle has no background but white")
        none = row_of("width 1\nheight 1\nrows\n1\ncolumns\n0\n", "x.non")
        self.assertEqual((none["verdict"], none["fit"]), ("error", False))
