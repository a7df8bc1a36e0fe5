"""Tests of nonobench-audit, by its command and its public calls, in the order of docs/AUDIT.md.

Pictures and what is expected of them are worked by hand. Pillow, defusedxml and jinja2 are needed.
"""

import csv
import hashlib
import io
import json
import os
import re
import signal
import sqlite3
import subprocess
import sys
import unittest
from concurrent.futures import Executor, Future, ThreadPoolExecutor
from pathlib import Path

sys.path.insert(0, str(Path(__file__).resolve().parent))
from audit_parts import (  # noqa: E402
    AMBIGUOUS,
    CASES,
    CERT,
    GIVEN_CERT,
    LEMMAS,
    OTHER,
    PATIENCE,
    ROOT,
    UNIQUE,
    Case,
    background_cases,
    cases_in,
    chequered,
    eventually,
    image,
    p3,
    p3_of_letters,
    webpbn,
)
from processes import children, is_running  # noqa: E402

import nonobench  # noqa: E402
from nonobench.collection import Options, Question, audit, judge  # noqa: E402

TEXTS = {
    ".ppm": p3(UNIQUE),
    ".png": image("PNG"),
    ".xml": webpbn(UNIQUE).encode(),
    ".non": b"width 2\nheight 1\nrows\n1\ncolumns\n1\n0\n",
    ".cert": CERT.encode(),
    ".givens": b"given 1 1\n",
    ".background": b"0,0,40\n",
}
SAVED = '<solution type="saved" id="givens"><image>|X?||??|</image></solution>'
# A puzzle that no search decides in a second.
HARD = p3_of_letters(chequered(60, 4))
# A text of XML takes many times its length of memory.
WIDE = "<puzzle>" + "<a/>" * 4_000_000 + "</puzzle>"


class Names(Case):
    """What belongs to a puzzle."""

    def test_whose_a_file_is(self):
        """The cases that the page reads, too."""
        text = re.sub(r"(?m)^#.*\n", "", (CASES / "names.txt").read_text(encoding="utf-8"))
        cases = re.findall(r"(?m)^folder (.+)\n((?:(?!folder ).*\n)*)", text)
        self.assertGreaterEqual(len(cases), 10)
        words = {"certificate": "cert"}
        for number, (names, lines) in enumerate(cases):
            with self.subTest(names):
                folder = self.folder / str(number)
                self.fill(folder / "site", names)
                found = []
                for kind, value in self.found(folder, []):
                    name, *belongs = value.split(" ")
                    if kind == "puzzle" and belongs:
                        found.append(f"{name}: {' '.join(words.get(one, one) for one in belongs)}")
                    elif kind == "of_none":
                        found.append(f"stray {name[:-1]}")
                self.assertEqual(sorted(found), sorted(filter(None, lines.splitlines())))

    def test_what_is_found_in_folders(self):
        cases = cases_in("folders.txt")
        self.assertGreaterEqual(len(cases), 6)
        for number, case in enumerate(cases):
            values = dict(case)
            with self.subTest(values["case"]):
                folder = self.folder / str(number)
                self.fill(folder / "site", values["folder"])
                self.fill(folder / "ours", values.get("ours", ""))
                found = self.found(folder, values.get("options", "").split())
                keys = ("puzzle", "of_none", "refused", "skipped")
                wanted = [(key, value) for key, value in case if key in keys]
                self.assertEqual(sorted(found), sorted(wanted))
                order = [value.split(" ")[0] for key, value in case if key == "puzzle"]
                self.assertEqual([v.split(" ")[0] for k, v in found if k == "puzzle"], order)

    def fill(self, folder, words):
        folder.mkdir(parents=True)
        for name, target in re.findall(r"(\S+)(?: -> (\S+))?", words):
            path = folder / name
            path.parent.mkdir(parents=True, exist_ok=True)
            if target:
                path.symlink_to(target)
            else:
                path.write_bytes(TEXTS.get(path.suffix.lower(), b"something else"))

    def found(self, folder, options):
        """What an audit finds, in the words of the cases."""
        done = self.run_audit("site", *options, "--jsonl", "rows.jsonl", cwd=folder)
        found = []
        for row in map(json.loads, (folder / "rows.jsonl").read_text().splitlines()):
            why = row.get("error", "")
            called = re.fullmatch(r"it belongs to no puzzle: rename it to (.+)", why)
            if called:
                found.append(("of_none", f"{row['file']}: {called[1]}"))
            elif why:
                found.append(("refused", f"{row['file']}: {why}"))
            else:
                found.append(("puzzle", self.described(row)))
        skipped = re.search(r"(?m)^skipped: (.+)$", done.stdout)
        return found + [("skipped", one) for one in (skipped[1].split(", ") if skipped else [])]

    def described(self, row):
        belongs = {
            "certificate": "certificate" in row,
            "givens": "givens" in row,
            "background": row["background_from"] == "named",
        }
        words = [row["file"], *(name for name, is_there in belongs.items() if is_there)]
        return " ".join(words + (["not", *row["ignored"]] if "ignored" in row else []))

    def test_what_is_made_is_found_again(self):
        self.put("small/one.png", image("PNG"))
        self.put("given.ppm", p3(AMBIGUOUS))
        self.put("given.ppm.givens", "given 1 1\n")
        self.put("dark.ppm", p3(UNIQUE, (0, 0, 40)))
        self.put("dark.ppm.background", "0,0,40\n")
        self.put("two.ppm", p3(AMBIGUOUS))
        self.run_audit("site", "--certify", "certs", "--ppm", "pairs", status=1)
        names = ["dark.ppm", "given.ppm", "small/one.png"]
        self.assertEqual(self.files("certs"), [f"{name}.cert" for name in names])
        more = {"dark.ppm": [".background"], "given.ppm": [".givens"], "small/one.png": []}
        more["small/one.png"] = [".background"]  # chosen, and named from then on
        self.assertEqual(
            self.files("pairs"),
            sorted(
                f"{name}.ppm{ending}" for name in names for ending in ("", ".cert", *more[name])
            ),
        )
        rows = self.rows("site", "--beside", "certs")
        accepted = [
            name for name, row in rows.items() if row.get("certificate", {}).get("accepted")
        ]
        # Neither the givens nor the background are in certs, and another one is not judged.
        self.assertEqual(accepted, ["small/one.png"])
        self.assertEqual(rows["dark.ppm"]["verdict"], "error")
        self.run_audit("pairs", "--certified", status=0)


class Folders(Case):
    """What a run is over."""

    def test_the_order_of_rows(self):
        for name in ("b.ppm", "a/z.ppm", "a.ppm", "c/a.ppm", "b/a.ppm", "a/b/c.ppm"):
            self.put(name, p3(UNIQUE))
        wanted = ["a.ppm", "b.ppm", "a/z.ppm", "a/b/c.ppm", "b/a.ppm", "c/a.ppm"]
        self.assertEqual(list(self.rows("site")), wanted)

    def test_files_that_are_named(self):
        self.put("one.ppm", p3(UNIQUE))
        self.put("one.ppm.cert", CERT)
        self.put("two.jpg", image("JPEG"))
        rows = self.rows("site/two.jpg", "site/one.ppm", status=1)
        self.assertEqual(list(rows), ["site/two.jpg", "site/one.ppm"])
        self.assertEqual(rows["site/one.ppm"]["certificate"], {"accepted": True})
        self.assertIn("convert it to PNG", rows["site/two.jpg"]["error"])
        ours = self.folder / "ours" / "site"
        ours.mkdir(parents=True)
        (ours / "one.ppm.cert").write_text(LEMMAS)
        row = self.rows("site/one.ppm", "--beside", "ours")["site/one.ppm"]
        self.assertEqual(row["certificate"], {"accepted": True})

    def test_names_from_a_file(self):
        self.put("one.ppm", p3(UNIQUE))
        self.put("two.ppm", p3(AMBIGUOUS))
        names = "site/two.ppm\n\nsite/one.ppm\nsite/gone.ppm\n"
        (self.folder / "names").write_text(names)
        for word, more in (("names", {}), ("-", {"input": names})):
            done = self.run_audit("--files-from", word, "--jsonl", "-", status=1, **more)
            rows = list(map(json.loads, done.stdout.splitlines()))
            self.assertEqual([row["verdict"] for row in rows], ["ambiguous", "unique", "error"])
            self.assertEqual(rows[2]["error"], "No such file or directory")
        self.run_audit("--files-from", "names", "--certify", "x", status=1)
        self.assertEqual(self.files("x"), ["site/one.ppm.cert"])
        for words, more, why in (
            (["-", "--certify", "x"], {"input": "/etc/passwd\n"}, "a path must be relative"),
            (["names", "--jsonl", "names"], {}, "'names' is an input, or another output"),
            (["names", "--csv", "./site/gone.ppm"], {}, "is an input, or another output"),
            (["-", "--jsonl", "one"], {"input": "one\n"}, "'one' is an input"),
            (["-"], {"input": "one.ppm\0two.ppm\0"}, "there must be one name per line"),
            (["missing"], {}, "--files-from 'missing': No such file or directory"),
        ):
            with self.subTest(words):
                done = self.run_audit("--files-from", *words, status=2, **more)
                self.assertIn(why, done.stderr)
        self.assertEqual((self.folder / "names").read_text(), names)

    def test_arguments_that_do_not_go_together(self):
        self.put("one.ppm", p3(UNIQUE))
        self.put("one.ppm.ppm", p3(UNIQUE))
        (self.folder / "other").mkdir()
        (self.folder / "file").touch()
        path = str(self.site / "one.ppm")
        for words, why in (
            ([], "name a folder, or files, or --files-from FILE"),
            (["nothing"], "no such file or folder"),
            (["site", "other"], "name one folder, or files"),
            (["site", "--files-from", "-"], "name a folder, or files, or --files-from FILE"),
            ([path, "--certify", "x"], "a path must be relative, without '..'"),
            (["../x/site/one.ppm", "--beside", "other"], "no such file"),
            (["other/../site/one.ppm", "--ppm", "x"], "a path must be relative, without '..'"),
            (["site", "--jsonl", "site/rows.jsonl"], "is in 'site', which is searched"),
            (["site", "--certify", "site"], "is in 'site', which is searched"),
            (["site", "--ppm", "site/made"], "is in 'site', which is searched"),
            (["site/one.ppm", "site/one.ppm.ppm", "--ppm", "."], "an output for 'site/one.ppm'"),
            (["site", "--ppm", "file"], "'file' is no folder"),
            (["site/one.ppm", "--csv", "site/one.ppm"], "is an input, or another output"),
            (["site", "--csv", "x", "--jsonl", "./x"], "is an input, or another output"),
            (["site", "--html", "other"], "an output cannot be called 'other'"),
            (["site", "--csv", "-", "--jsonl", "-"], "cannot both be standard output"),
            (["site", "--html", "-"], "--html and --sqlite need a file"),
            (["site", "--resume"], "--resume needs --jsonl FILE or --sqlite FILE"),
            (["site", "--resume", "--jsonl", "-"], "--resume needs"),
            (["site", "--certified", "--certify", "x"], "makes no certificates"),
            (["site", "--beside", "nothing"], "no such folder"),
            (["site", "--jobs", "0"], "must be 1 to"),
            (["site", "--seconds", "0.5"], "must be a whole number"),
            (["site", "--memory", "1"], "must be 64 to"),
            (["site", "--max-guesses", "100000"], "must be 0 to 99999"),
            (["site", "--background", "blue"], "must be auto, white, or R,G,B"),
            (["site", "--background", "0,0,65536"], "up to 65535"),
            (["site", "--allow", "10"], "unrecognized"),
        ):
            with self.subTest(words):
                self.assertIn(why, self.run_audit(*words, status=2).stderr)
        self.assertEqual(sorted(os.listdir(self.folder)), ["file", "other", "site"])

    def test_status(self):
        self.put("one.ppm", p3(UNIQUE))
        self.run_audit("site", status=0)
        self.put("bad.ppm", b"P3 1")
        self.assertEqual(self.rows("site", status=1)["bad.ppm"]["fit"], False)
        (self.folder / "empty").mkdir()
        self.assertIn("there are no puzzles", self.run_audit("empty", status=3).stderr)
        self.run_audit("site/none.ppm", status=2)
        version = f"nonobench-audit {nonobench.version()}\n"
        self.assertEqual(self.run_audit("--version", status=0).stdout, version)
        self.assertIn("status:\n  0  every puzzle", self.run_audit("--help", status=0).stdout)

    @unittest.skipIf(os.geteuid() == 0, "root may list each folder")
    def test_a_folder_that_cannot_be_listed(self):
        self.put("one.ppm", p3(UNIQUE))
        self.put("shut/two.ppm", p3(UNIQUE))
        (self.site / "shut").chmod(0)
        self.addCleanup((self.site / "shut").chmod, 0o700)
        done = self.run_audit("site", "--jsonl", "rows.jsonl", status=3)
        self.assertIn("site/shut: Permission denied", done.stderr)
        self.assertEqual(list(self.read("rows.jsonl")), ["one.ppm"])

    def test_what_is_no_regular_file(self):
        os.mkfifo(self.site / "pipe.ppm")
        (self.site / "large.ppm").write_bytes(b"P3 ")
        os.truncate(self.site / "large.ppm", (16 << 20) + 1)
        rows = self.rows("site", status=1)
        self.assertEqual(rows["pipe.ppm"]["error"], "this is not a file")
        self.assertEqual(rows["large.ppm"]["error"], "more than 16777216 bytes")


class Strangers(Case):
    """What is not believed."""

    def test_what_their_xml_names(self):
        dark = webpbn(AMBIGUOUS).replace("<puzzle", '<puzzle backgroundcolor="black"')
        self.put("given.xml", webpbn(AMBIGUOUS, more=SAVED))
        self.put("dark.xml", dark)
        rows = self.rows("site")
        self.assertEqual((rows["given.xml"]["verdict"], rows["given.xml"]["fit"]), ("unique", True))
        self.assertEqual(rows["dark.xml"]["background"], "000000")
        rows = self.rows("site", "--untrusted", status=1)
        self.assertEqual(rows["given.xml"]["verdict"], "ambiguous")
        self.assertEqual(rows["given.xml"]["ignored"], ["givens in the XML"])
        why = "its background 0,0,0 is not believed: name it"
        self.assertEqual(
            (rows["dark.xml"]["verdict"], rows["dark.xml"]["error"], rows["dark.xml"]["fit"]),
            ("error", why, False),
        )
        self.put_for("given.xml", "ours", givens="given 2 2\n")
        row = self.rows("site", "--untrusted", "--beside", "ours")["given.xml"]
        self.assertEqual((row["verdict"], row["givens"]), ("unique", [[2, 2]]))

    def test_what_lies_beside(self):
        self.put("two.ppm", p3(AMBIGUOUS))
        self.put_for("two.ppm", givens="given 1 1\n", certificate=GIVEN_CERT)
        row = self.rows("site")["two.ppm"]
        self.assertEqual((row["verdict"], row["fit"]), ("unique", True))
        self.assertEqual(row["certificate"], {"accepted": True, "givens": [[1, 1]]})
        row = self.rows("site", "--untrusted", status=1)["two.ppm"]
        self.assertEqual((row["verdict"], row["ignored"]), ("ambiguous", ["certificate", "givens"]))
        table = self.run_audit("site", "--untrusted").stdout
        self.assertIn("two.ppm; not believed: certificate, givens", table)

    def test_a_background_that_is_named_is_judged_or_refused(self):
        """Navy on red has two solutions; on white it has one."""
        navy = p3(AMBIGUOUS, (0, 0, 40))
        self.put("moon.ppm", navy)
        self.put("moon.ppm.background", "0,0,40")
        self.put("white.ppm", p3(UNIQUE))
        self.put("white.ppm.background", "white")
        rows = self.rows("site", "--untrusted", status=1)
        why = "its background 0,0,40 is not believed: name it"
        self.assertEqual((rows["moon.ppm"]["verdict"], rows["moon.ppm"]["error"]), ("error", why))
        self.assertEqual(rows["white.ppm"]["verdict"], "unique")
        rows = self.rows("site", "--untrusted", "--background", "0,0,40")
        self.assertEqual(rows["moon.ppm"]["verdict"], "ambiguous")
        self.assertEqual(rows["white.ppm"]["verdict"], "error")

    def test_what_is_called_otherwise_than_what_belongs_to_a_file(self):
        self.put("moon.ppm", p3(UNIQUE))
        self.put("moon.ppm.Background", "0,0,40")
        row = self.rows("site/moon.ppm", status=1)["site/moon.ppm"]
        self.assertIn(
            "rename its background moon.ppm.Background to moon.ppm.background", row["error"]
        )


class Rows(Case):
    """What is said of each puzzle."""

    def test_verdicts(self):
        self.put("one.ppm", p3(UNIQUE))
        self.put("two.ppm", p3(AMBIGUOUS))
        self.put("key.non", "width 1\nheight 1\nrows\n1\ncolumns\n1\n")
        rows = self.rows("site", status=1)
        names = ("verdict", "fit", "rows", "columns", "colours", "open")
        self.assertEqual([rows["one.ppm"][n] for n in names], ["unique", True, 2, 2, 3, 0])
        self.assertEqual([rows["two.ppm"][n] for n in names], ["ambiguous", False, 2, 2, 2, 4])
        one = rows["one.ppm"]
        self.assertEqual(one["picture"], "a./.b")
        self.assertEqual(one["palette"], ["ffffff", "000000", "ff0000"])
        self.assertEqual(rows["two.ppm"]["other"], OTHER)
        self.assertEqual(rows["key.non"]["verdict"], "unique")
        self.assertEqual(one["digest"], hashlib.sha256(p3(UNIQUE)).hexdigest())
        self.assertEqual(one["tool"], f"nonobench {nonobench.version()}")

    def test_grades(self):
        # An example of tests/cases/grade.case, by hand: 2 rounds, 8 evaluations, longest wait 2.
        self.put("one.ppm", p3([".a.", "aa.", "..."]))
        row = self.rows("site", status=0)["one.ppm"]
        figures = {"rounds": 2, "evaluations": 8, "wait": 2, "splits": 0, "depth": 0}
        self.assertEqual((row["grade"], row["figures"]), ("easy", figures))

    def test_rows_are_as_the_schema_says(self):
        schema = json.loads((ROOT / "docs" / "rows.schema.json").read_text())
        self.put("one.ppm", p3(UNIQUE))
        self.put("one.png", image("PNG"))
        self.put("blank.ppm", p3(["..", ".."]))
        self.put("two.ppm", p3(AMBIGUOUS))
        self.put_for("two.ppm", certificate=GIVEN_CERT)
        self.put("given.ppm", p3(AMBIGUOUS))
        self.put_for("given.ppm", givens="given 1 1\n", certificate=GIVEN_CERT)
        self.put("many.ppm", p3(UNIQUE))
        self.put_for("many.ppm", givens="given 1 1\n")
        self.put("title.xml", webpbn(UNIQUE, "A title", more=SAVED))
        self.put("bad.ppm", "P3 9")
        self.put("hard.ppm", HARD)
        rows = {**self.rows("site", "--certify", "certs", "--seconds", "1")}
        rows["untrusted"] = self.rows("site", "--untrusted", "--seconds", "1")["title.xml"]
        seen = set()
        for row in rows.values():
            self.check(row, schema)
            seen |= row.keys()
        self.assertEqual(set(schema["properties"]) - seen, {"missing"})

    def check(self, value, schema):
        """The little of JSON Schema that the schema uses."""
        kinds = {
            "object": dict,
            "array": list,
            "string": str,
            "integer": int,
            "number": (int, float),
            "boolean": bool,
        }
        self.assertIsInstance(value, kinds[schema["type"]], schema)
        if schema["type"] == "integer":
            self.assertNotIsInstance(value, bool)
            self.assertGreaterEqual(value, schema.get("minimum", 0))
            self.assertLessEqual(value, schema.get("maximum", value))
        if "enum" in schema:
            self.assertIn(value, schema["enum"])
        if "pattern" in schema:
            self.assertRegex(value, schema["pattern"])
        if schema["type"] == "array":
            for one in value:
                self.check(one, schema["items"])
        if schema["type"] == "object":
            self.assertLessEqual(value.keys(), schema["properties"].keys())
            self.assertLessEqual(set(schema["required"]), value.keys())
            for name, one in value.items():
                self.check(one, schema["properties"][name])

    def test_certificates(self):
        self.put("good.ppm", p3(UNIQUE))
        self.put("good.ppm.cert", LEMMAS)
        self.put("bad.ppm", p3(UNIQUE))
        self.put("bad.ppm.cert", GIVEN_CERT)
        self.put("edited.ppm", p3(UNIQUE))
        self.put("edited.ppm.cert", b"\xef\xbb\xbf" + CERT.encode())
        self.put("bare.ppm", p3(UNIQUE))
        rows = self.rows("site", status=1)
        why = "certificate UnpublishedGiven at line 2"
        refused = {"accepted": False, "why": why, "givens": [[1, 1]]}
        self.assertEqual(rows["bad.ppm"]["certificate"], refused)
        self.assertEqual((rows["bad.ppm"]["verdict"], rows["bad.ppm"]["fit"]), ("unique", False))
        self.assertIn("byte order mark", rows["edited.ppm"]["certificate"]["why"])
        self.assertEqual((rows["good.ppm"]["fit"], rows["bare.ppm"]["fit"]), (True, True))
        rows = self.rows("site", "--certified", status=1)
        fit = [name for name, row in rows.items() if row["fit"]]
        self.assertEqual(fit, ["good.ppm"])
        self.assertEqual(rows["bare.ppm"]["error"], "there is no certificate")
        self.assertIn(why, rows["bad.ppm"]["error"])

    def test_certified_puzzles_are_not_searched(self):
        self.put("hard.ppm", HARD)
        self.put("hard.ppm.cert", CERT)
        self.put("clues.non", "width 1\nheight 1\nrows\n1\ncolumns\n1\n")
        self.put("clues.non.cert", CERT)
        rows = self.rows("site", "--certified", status=1)
        self.assertIn("its certificate is refused", rows["hard.ppm"]["error"])
        self.assertIn("NoGoal", rows["clues.non"]["error"])

    def test_flaws(self):
        self.put("blank.ppm", p3(["..", ".."]))
        self.put("near.ppm", b"P3 2 1 255  255 255 255  250 250 250\n")
        self.put("given.ppm", p3(UNIQUE))
        self.put_for("given.ppm", givens="given 1 1\n")
        rows = self.rows("site", status=1)
        flaws = {name: row["flaws"] for name, row in rows.items()}
        wanted = {"blank.ppm": ["blank"], "given.ppm": ["given 1 1"], "near.ppm": ["alike . a"]}
        self.assertEqual(flaws, wanted)
        self.assertEqual({row["fit"] for row in rows.values()}, {False})
        # What is allowed is fit, in the row as in the status.
        rows = self.rows("site", "--allow-flaw", "any", status=0)
        self.assertEqual({row["fit"] for row in rows.values()}, {True})
        self.assertEqual(rows["blank.ppm"]["flaws"], ["blank"])

    def test_puzzles_with_the_same_clues(self):
        picture = ["aa.", "..b", ".a."]
        turned = ["".join(row) for row in zip(*picture[::-1])]
        mirrored = [row[::-1].translate({97: 98, 98: 97}) for row in turned]
        self.put("a.ppm", p3(picture))
        self.put("b.ppm", p3(mirrored))
        self.put("c.ppm", p3(["aa.", ".b.", ".a."]))
        # Two pictures with one puzzle's clues.
        self.put("d.ppm", p3(AMBIGUOUS))
        self.put("e.ppm", p3(AMBIGUOUS[::-1]))
        rows = self.rows("site")
        same = {name: row.get("same_as") for name, row in rows.items()}
        wanted = {"a.ppm": None, "b.ppm": "a.ppm", "c.ppm": None, "d.ppm": None, "e.ppm": "d.ppm"}
        self.assertEqual(same, wanted)
        self.assertIn("b.ppm; same clues as a.ppm", self.run_audit("site").stdout)

    def test_backgrounds(self):
        cases = list(background_cases())
        self.assertGreaterEqual(len(cases), 10)
        for name, data, named, wanted, refused in cases:
            with self.subTest(name):
                row = judge([Question("one.png", data, background=named)])[0].row
                if refused:
                    self.assertIn(f"the image is refused: {refused} (", row["error"])
                else:
                    self.assertEqual((row["background"], row["background_from"]), wanted)

    def test_what_is_named_beside(self):
        """The texts that the page reads too."""
        count = 0
        for line in (CASES / "beside.txt").read_text(encoding="utf-8").splitlines():
            if not line or line.startswith("#"):
                continue
            kind, rest = line.split(" ", 1)
            quoted, wanted = rest.rsplit('" ', 1)
            text = json.loads(quoted + '"').encode()
            with self.subTest(line):
                asked = givens_words if kind == "givens" else background_words
                self.assertEqual(asked(text), wanted)
            count += 1
        self.assertGreater(count, 40)

    def test_names_that_no_output_could_show(self):
        name = os.fsdecode(b"\xff\x1b[31m\n.ppm")
        (self.site / name).write_bytes(p3(UNIQUE))
        self.assertEqual(list(self.rows("site", "--csv", "x.csv")), [name])
        printed = self.run_audit("site", "--html", "x.html", "--csv", "-").stdout
        self.assertIn("\\udcff\\x1b[31m\\n.ppm", printed)
        self.assertNotIn("\x1b", printed)


def givens_words(text):
    """What a file of givens comes to beside a picture of 3 rows and 4 columns."""
    row = judge([Question("one.ppm", p3(["...."] * 3), givens=text)])[0].row
    if "error" in row:
        return "outside" if re.search("givens Place", row["error"]) else "refused"
    return " ".join(f"{r},{c}" for r, c in row.get("givens", ())) or "none"


def background_words(text):
    """The background that a file names."""
    data = b"P3 1 1 65535 %s\n" % (text.strip().replace(b",", b" ") if b"," in text else b"0 0 0")
    row = judge([Question("one.ppm", data, background=text)])[0].row
    if "error" in row:
        return "refused"
    return (
        ",".join(str(int(part)) for part in text.decode().strip().split(","))
        if b"," in text
        else text.decode().strip()
    )


class Inline(Executor):
    """An executor that runs all at once."""

    def submit(self, call, *words, **more):
        future = Future()
        future.set_result(call(*words, **more))
        return future


class Loop(Case):
    """Processes with limits, on any executor."""

    def puzzles(self, count=100):
        for number in range(count):
            picture = AMBIGUOUS if number % 3 == 2 else UNIQUE
            yield f"{number:03}.ppm", p3(picture)

    def test_audit_on_any_executor(self):
        options = Options(max_guesses=9)
        wanted = ["ambiguous" if number % 3 == 2 else "unique" for number in range(100)]
        rows = list(audit(self.puzzles(), options))
        self.assertEqual([row["verdict"] for row in rows], wanted)
        self.assertEqual([row["file"] for row in rows], [name for name, _ in self.puzzles()])
        with ThreadPoolExecutor(3) as threads:
            self.assertEqual(list(audit(self.puzzles(), options, threads)), rows)
        self.assertEqual(list(audit(self.puzzles(), options, Inline())), rows)
        question = Question("x.ppm", p3(AMBIGUOUS), givens=b"given 1 1\n")
        self.assertEqual([row["fit"] for row in audit([question])], [True])

    def test_rows_come_while_puzzles_do(self):
        def endless():
            while True:
                yield "x.ppm", p3(UNIQUE)

        rows = audit(endless())
        self.assertEqual(next(rows)["verdict"], "unique")
        rows.close()

    def test_who_leaves_the_loop_waits_for_nothing(self):
        """Each of the puzzles behind the first ones would take all of the time."""
        before = children(os.getpid())
        puzzles = [*[("one.ppm", p3(UNIQUE))] * 16, *[("hard.ppm", HARD)] * 200]
        rows = audit(puzzles, Options(seconds=PATIENCE))
        self.assertEqual(next(rows)["verdict"], "unique")
        rows.close()
        eventually(lambda: set(children(os.getpid())) <= set(before))

    def test_certificates_in_a_program(self):
        (answer,) = judge([Question("x.ppm", p3(UNIQUE))], Options(is_certifying=True))
        self.assertEqual(nonobench.check(p3(UNIQUE), answer.files[".cert"]).givens, ())
        self.assertEqual(answer.row["lines"], answer.files[".cert"].count(b"\n"))

    def test_a_puzzle_that_takes_too_long(self):
        self.put("hard.ppm", HARD)
        for number in range(40):
            self.put(f"{number}.ppm", p3(UNIQUE))
        rows = self.rows("site", "--seconds", "1", "--jobs", "1", status=1)
        self.assertEqual(len(rows), 41)
        self.assertEqual({row["verdict"] for row in rows.values()}, {"unique", "undecided"})
        hard = rows["hard.ppm"]
        self.assertEqual(hard["limit"], {"seconds": 1, "memory": 1024})
        # On a busy machine the clock comes first.
        self.assertRegex(hard["notes"][0], "^no answer within (its processor time|10 seconds)$")
        hard = self.rows("site", "--max-guesses", "10", status=1)["hard.ppm"]
        self.assertEqual((hard["verdict"], hard["limit"]["guesses"]), ("undecided", 10))
        self.assertNotIn("seconds", hard)

    def test_a_puzzle_that_takes_too_much_memory(self):
        self.put("wide.xml", WIDE)
        self.put("one.ppm", p3(UNIQUE))
        rows = self.rows("site", "--memory", "200", status=1)
        self.assertEqual(rows["wide.xml"]["verdict"], "undecided")
        self.assertEqual(rows["wide.xml"]["notes"], ["no answer within its memory"])
        self.assertEqual(rows["one.ppm"]["verdict"], "unique")

    def test_the_same_rows_however_many_work(self):
        for name, data in self.puzzles(70):
            self.put(name, data)
        texts = set()
        for jobs in ("1", "3"):
            self.run_audit("site", "--max-guesses", "9", "--jobs", jobs, "--jsonl", "r", status=1)
            texts.add((self.folder / "r").read_text())
        self.assertEqual(len(texts), 1)

    def test_no_process_outlives_a_run(self):
        self.put("hard.ppm", HARD)
        process = self.start("site")
        pids = eventually(lambda: children(process.pid))
        process.kill()
        process.wait()
        eventually(lambda: not any(map(is_running, pids)))

    def test_the_workers_of_dask(self):
        distributed = shutil_which_distributed()
        if distributed is None:
            self.skipTest("there is no distributed")
        for name, data in self.puzzles(70):
            self.put(name, data)
        here = self.rows("site", "--max-guesses", "9")
        with distributed.LocalCluster(
            n_workers=2, threads_per_worker=1, dashboard_address=None, protocol="tcp"
        ) as cluster:
            words = ["--scheduler", cluster.scheduler_address, "--max-guesses", "9"]
            there = self.rows("site", *words, "--certify", "certs", status=1)
        self.assertEqual(there.keys(), here.keys())
        for name, row in here.items():
            self.assertEqual(there[name]["verdict"], row["verdict"])
        made = len(list((self.folder / "certs").iterdir()))
        self.assertEqual(made, sum(row["verdict"] == "unique" for row in here.values()))

    def test_no_scheduler(self):
        if shutil_which_distributed() is None:
            self.skipTest("there is no distributed")
        self.put("one.ppm", p3(UNIQUE))
        more = {"DASK_DISTRIBUTED__COMM__TIMEOUTS__CONNECT": "1s"}
        done = self.run_audit("site", "--scheduler", "tcp://127.0.0.1:1", status=3, **more)
        self.assertNotIn("Traceback", done.stderr.rpartition("nonobench-audit:")[2])


def shutil_which_distributed():
    """Dask's distributed, if it is there."""
    try:
        import distributed
    except ImportError:
        return None
    return distributed


class Resume(Case):
    """Runs that go on."""

    def marked(self, name="rows.jsonl"):
        """Marks each row of a file, so that one sees which are kept."""
        path = self.folder / name
        lines = [json.loads(line) for line in path.read_text().splitlines()]
        path.write_text("".join(json.dumps({**row, "title": "kept"}) + "\n" for row in lines))

    def kept(self, *words, status=None):
        """The rows that a run keeps."""
        rows = self.rows(*words, "--resume", status=status)
        self.rows_seen = list(rows)
        return [name for name, row in rows.items() if row.get("title") == "kept"]

    def test_what_is_kept(self):
        for name in ("a.ppm", "b.ppm", "c.ppm", "d.ppm"):
            self.put(name, p3(UNIQUE))
        self.rows("site")
        self.marked()
        self.put("b.ppm", p3(AMBIGUOUS))
        self.put("c.ppm.cert", CERT)
        (self.site / "d.ppm").unlink()
        self.put("e.ppm", p3(UNIQUE[::-1]))
        self.assertEqual(self.kept("site", status=1), ["a.ppm"])
        self.assertEqual(self.rows_seen, ["a.ppm", "b.ppm", "c.ppm", "e.ppm"])
        self.marked()
        self.assertEqual(self.kept("site"), ["a.ppm", "b.ppm", "c.ppm", "e.ppm"])
        self.assertEqual(self.kept("site", "--background", "0,0,0"), [])

    def test_a_folder_that_is_renamed(self):
        self.put("small/a.ppm", p3(UNIQUE))
        self.put("small/b.ppm", p3(AMBIGUOUS))
        self.rows("site")
        self.marked()
        (self.site / "small").rename(self.site / "large")
        self.assertEqual(self.kept("site"), ["large/a.ppm", "large/b.ppm"])

    def test_limits(self):
        self.put("wide.xml", WIDE)
        self.put("one.ppm", p3(UNIQUE))
        self.rows("site", "--memory", "200")
        self.marked()
        self.assertEqual(self.kept("site", "--memory", "200"), ["one.ppm", "wide.xml"])
        self.assertEqual(self.kept("site", "--memory", "201"), ["one.ppm"])

    def test_certificates_that_are_not_there_are_made_again(self):
        for name in ("a.ppm", "b.ppm"):
            self.put(name, p3(UNIQUE))
        self.rows("site", "--certify", "certs")
        self.marked()
        (self.folder / "certs" / "b.ppm.cert").unlink()
        self.assertEqual(self.kept("site", "--certify", "certs"), ["a.ppm"])
        self.assertEqual(len(list((self.folder / "certs").iterdir())), 2)

    def test_what_an_earlier_run_wrote_beside_a_picture_goes(self):
        self.put("a.ppm", p3(AMBIGUOUS))
        self.put("a.ppm.givens", "given 1 1\n")
        self.put("a.ppm.background", "255,255,255")
        self.run_audit("site", "--ppm", "pairs", status=0)
        made = ["a.ppm.ppm", "a.ppm.ppm.background", "a.ppm.ppm.cert", "a.ppm.ppm.givens"]
        self.assertEqual(sorted(os.listdir(self.folder / "pairs")), made)
        for ending in (".givens", ".background"):
            (self.site / f"a.ppm{ending}").unlink()
        self.put("a.ppm", p3(UNIQUE))
        self.run_audit("site", "--ppm", "pairs", status=0)
        self.assertEqual(sorted(os.listdir(self.folder / "pairs")), [made[0], made[2]])
        self.run_audit("pairs", "--certified", status=0)

    def test_a_puzzle_without_one_solution_loses_its_files(self):
        for name in ("a.ppm", "b.ppm", "gone.ppm"):
            self.put(name, p3(UNIQUE))
        words = ["site", "--certify", "certs", "--ppm", "pairs"]
        self.run_audit(*words, status=0)
        self.put("a.ppm", p3(AMBIGUOUS))
        (self.site / "gone.ppm").unlink()
        said = self.run_audit(*words, status=1).stderr
        self.assertEqual(sorted(os.listdir(self.folder / "certs")), ["b.ppm.cert", "gone.ppm.cert"])
        self.assertIn("certs: 1 file belongs to no puzzle of this run", said)
        self.assertIn("pairs: 2 files belong to no puzzle of this run", said)
        self.assertFalse((self.folder / "pairs" / "a.ppm.ppm").exists())

    def test_files_under_another_name_are_made_again(self):
        """A new puzzle in front, and all others are renamed."""
        first, *pictures = p3([".b", "a."]), p3(UNIQUE), p3(["ab", ".b"]), p3(["aa", ".b"])
        for number, picture in enumerate(pictures):
            self.put(f"{number}.ppm", picture)
        words = ["site", "--ppm", "pairs", "--certify", "certs"]
        self.rows(*words, status=0)
        for number, picture in enumerate([first, *pictures]):
            self.put(f"{number}.ppm", picture)
        self.rows(*words, "--resume", status=0)
        for number, picture in enumerate([first, *pictures]):
            self.assertEqual((self.folder / "pairs" / f"{number}.ppm.ppm").read_bytes(), picture)
        (self.folder / "certs" / "2.ppm.cert").write_text("")
        self.marked()
        self.assertEqual(self.kept(*words, status=0), ["0.ppm", "1.ppm", "3.ppm"])

    def test_rows_stay_until_a_run_ends_well(self):
        self.put("a.ppm", p3(UNIQUE))
        self.put("b.ppm", p3(AMBIGUOUS))
        (self.folder / "empty").mkdir()
        self.run_audit("site", "--csv", "x.csv", status=1)
        before = self.rows("site", status=1)
        for words in (["empty", "--resume"], ["empty", "--csv", "x.csv"]):
            said = self.run_audit(*words, "--jsonl", "rows.jsonl", status=3).stderr
            self.assertIn("what was there before is not replaced", said)
            self.assertEqual(self.read("rows.jsonl"), before)
        self.assertIn("b.ppm", (self.folder / "x.csv").read_text())
        for words in (["--html", "x.html"], ["--scheduler", "tcp://x:9999x"]):
            done = subprocess.run(
                [sys.executable, "-S", *self.words("site", "--jsonl", "rows.jsonl", *words)[1:]],
                cwd=self.folder,
                env=self.env(),
                capture_output=True,
                check=False,
            )
            self.assertEqual((done.returncode, self.read("rows.jsonl")), (3, before), done.stderr)
        self.assertEqual(list(self.folder.glob("*.new")), [])

    def test_two_runs_at_once(self):
        self.put("a.ppm", p3(UNIQUE))
        self.put("hard.ppm", HARD)
        outputs = ["--csv", "x.csv", "--jsonl", "x.jsonl", "--sqlite", "x.db", "--certify", "certs"]
        process = self.start("site", *outputs)
        path = self.folder / "x.jsonl"
        eventually(path.exists)
        for words in zip(outputs[::2], outputs[1::2]):
            done = self.run_audit("site/a.ppm", *words, "--quiet", status=3)
            self.assertIn(f"another run is writing {words[1]}", done.stderr)
        process.send_signal(signal.SIGINT)
        process.communicate(timeout=PATIENCE)
        self.run_audit("site/a.ppm", *outputs, status=0)

    def test_rows_are_kept_behind_one_that_takes_long(self):
        self.put("0.ppm", HARD)
        for number in range(100):
            self.put(f"1{number:02}.ppm", p3(UNIQUE))
        outputs = ["--jsonl", "rows.jsonl", "--sqlite", "x.db"]
        process = self.start("site", *outputs, "--jobs", "2")
        path = self.folder / "rows.jsonl"
        eventually(lambda: path.exists() and path.read_bytes().count(b"\n") >= 85)
        process.kill()
        process.wait()
        with sqlite3.connect(self.folder / "x.db") as database:
            count = database.execute("SELECT count(*) FROM puzzles").fetchone()
        database.close()
        self.assertGreaterEqual(count[0], 69)  # the last ones may be on their way

    def test_what_is_no_answer_is_not_kept(self):
        """The process that judges is killed from outside."""
        self.put("hard.ppm", HARD)
        process = self.start("site", "--jsonl", "rows.jsonl", "--jobs", "1")
        for pid in eventually(lambda: children(process.pid)):
            os.kill(pid, signal.SIGKILL)
        process.communicate(timeout=PATIENCE)
        row = self.read("rows.jsonl")["hard.ppm"]
        self.assertEqual((row["verdict"], row.get("key")), ("undecided", None))

    def test_a_run_that_is_killed(self):
        for number in range(300):
            self.put(f"{number:03}.ppm", p3(AMBIGUOUS if number % 7 == 3 else UNIQUE))
        self.put("250-hard.ppm", HARD)
        words = ["site", "--max-guesses", "2000", "--jsonl"]
        self.run_audit(*words, "whole", status=1)
        process = self.start(*words, "rows.jsonl")
        path = self.folder / "rows.jsonl"
        eventually(lambda: path.exists() and path.read_bytes().count(b"\n") > 40)
        process.kill()
        process.wait()
        with path.open("ab") as file:
            file.write(b'{"file":"torn')
        self.run_audit(*words, "rows.jsonl", "--resume", status=1)
        self.assertEqual(path.read_text(), (self.folder / "whole").read_text())

    def test_a_run_that_is_stopped(self):
        for number in range(100):
            self.put(f"a{number:03}.ppm", p3(UNIQUE))
        self.put("b.ppm", HARD)
        for number, status in ((signal.SIGINT, 130), (signal.SIGTERM, 143)):
            (self.folder / "old.csv").write_text("old")
            process = self.start("site", "--jsonl", "rows.jsonl", "--csv", "old.csv")
            path = self.folder / "rows.jsonl"
            eventually(lambda: path.exists() and path.read_bytes().count(b"\n") > 90)
            process.send_signal(number)
            _, said = process.communicate(timeout=PATIENCE)
            self.assertEqual(process.returncode, status, said)
            self.assertRegex(said, r"stopped after \d+ puzzles; --resume goes on")
            self.assertGreater(len(self.read("rows.jsonl")), 90)
            self.assertEqual((self.folder / "old.csv").read_text(), "old")
            self.assertEqual(list(self.folder.glob("*.new")), [])
            path.unlink()

    def test_a_database(self):
        self.put("a.ppm", p3(UNIQUE))
        self.put("b.ppm", p3(AMBIGUOUS))
        self.run_audit("site", "--sqlite", "x.db", status=1)
        database = sqlite3.connect(self.folder / "x.db")
        self.addCleanup(database.close)
        asked = "SELECT file, verdict, fit FROM puzzles ORDER BY file"
        wanted = [("a.ppm", "unique", 1), ("b.ppm", "ambiguous", 0)]
        self.assertEqual(database.execute(asked).fetchall(), wanted)
        with database:
            database.execute("""UPDATE puzzles SET row = json_set(row, '$.title', 'kept')""")
        self.put("b.ppm", p3(UNIQUE))
        words = ["site", "--sqlite", "x.db", "--resume", "--jsonl", "-"]
        rows = list(map(json.loads, self.run_audit(*words, status=0).stdout.splitlines()))
        self.assertEqual([row.get("title") for row in rows], ["kept", "kept"])
        # The row of b.ppm is that of a.ppm, of which the bytes are the same.
        self.assertEqual([row["file"] for row in rows], ["a.ppm", "b.ppm"])
        self.assertEqual(database.execute(asked).fetchall()[1], ("b.ppm", "unique", 1))

    def test_a_database_of_several_folders(self):
        self.put("one/a.ppm", p3(UNIQUE))
        self.put("two/a.ppm", p3(AMBIGUOUS))
        self.run_audit("site/one", "--sqlite", "x.db", status=0)
        self.run_audit("../site/two", "--sqlite", "../x.db", status=1, cwd=self.site)
        self.run_audit("a.ppm", "--sqlite", "../../x.db", "--quiet", cwd=self.site / "two")
        with sqlite3.connect(self.folder / "x.db") as database:
            rows = database.execute("SELECT folder, file, verdict FROM puzzles ORDER BY folder")
            found = rows.fetchall()
        database.close()
        site = os.path.realpath(self.site)
        wanted = [(f"{site}/one", "a.ppm", "unique"), (f"{site}/two", "a.ppm", "ambiguous")]
        self.assertEqual(found, wanted)

    def test_a_database_of_something_else(self):
        self.put("a.ppm", p3(UNIQUE))
        with sqlite3.connect(self.folder / "x.db") as database:
            database.execute("CREATE TABLE puzzles (name, image)")
        database.close()
        done = self.run_audit("site", "--sqlite", "x.db", status=3)
        self.assertIn("x.db has another table that is called puzzles", done.stderr)
        (self.folder / "y.db").write_text("something\n" * 100)
        done = self.run_audit("site", "--sqlite", "y.db", status=3)
        self.assertIn("y.db: file is not a database", done.stderr)

    def test_a_file_of_something_else(self):
        self.put("a.ppm", p3(UNIQUE))
        (self.folder / "rows.jsonl").write_text("something\n[1]\n{}\n")
        self.assertEqual(self.kept("site", status=0), [])


class Outputs(Case):
    """What is written."""

    def test_table(self):
        self.put("one.ppm", p3(UNIQUE))
        self.put("two.ppm", p3(AMBIGUOUS))
        printed = self.run_audit("site").stdout
        self.assertRegex(printed, r"^FIT  VERDICT +SIZE  COLOURS  BACKGROUND  GIVENS +OPEN  GRADE")
        one = r"(?m)^yes  unique +2x2 +3 +#ffffff +0 +0 +easy +[0-9.]+  one\.ppm$"
        self.assertRegex(printed, one)
        two = r"(?m)^no   ambiguous +2x2 +2 +#ffffff +0 +4 +[0-9.]+  two\.ppm$"
        self.assertRegex(printed, two)
        self.assertIn("\n\n2 puzzles: fit 1, ambiguous 1\n", printed)
        self.assertEqual(self.run_audit("site", "--quiet").stdout, "")

    def test_csv(self):
        self.put("=1+1.ppm", p3(AMBIGUOUS))
        self.put_for("=1+1.ppm", givens="given 1 1\n", certificate=GIVEN_CERT)
        titles = {
            "=HYPERLINK()": "'=HYPERLINK()",
            "+1": "'+1",
            "-1": "'-1",
            "@A1": "'@A1",
            "\uff1d1": "'\uff1d1",
            "\ufe6bA1": "'\ufe6bA1",
            "a;=1": "a;'=1",
            "a; +1;;-1": "a;' +1;;'-1",
            "a=1": "a=1",
            "\u22121": "\u22121",
        }
        for number, title in enumerate(titles):
            self.put(f"{number}.xml", webpbn(UNIQUE, title))
        self.run_audit("site", "--csv", "rows.csv", status=0)
        rows = list(csv.DictReader(io.StringIO((self.folder / "rows.csv").read_text())))
        self.assertEqual([row["title"] for row in rows if row["title"]], list(titles.values()))
        row = rows[-1]
        self.assertEqual((row["file"], row["fit"], row["verdict"]), ("'=1+1.ppm", "yes", "unique"))
        self.assertEqual((row["givens"], row["certificate_givens"]), ("1,1", "1,1"))
        self.assertEqual(row["palette"], "#ffffff #000000")
        self.assertEqual(row["digest"], hashlib.sha256(p3(AMBIGUOUS)).hexdigest())

    def test_outputs_that_are_no_regular_files(self):
        self.put("one.ppm", p3(UNIQUE))
        (self.folder / "link").symlink_to("elsewhere")
        os.mkfifo(self.folder / "pipe")
        for option in ("--csv", "--html", "--jsonl", "--sqlite"):
            for name in ("link", "pipe", "/dev/null"):
                said = self.run_audit("site", option, name, status=2).stderr
                self.assertIn(f"{name!r} is no regular file", said)
        said = self.run_audit("site", "--csv", "a.new", "--html", "a", status=2).stderr
        self.assertIn("or another output", said)

    def test_a_link_in_the_place_of_a_new_file_is_not_followed(self):
        self.put("one.ppm", p3(UNIQUE))
        (self.folder / "mine").write_text("mine")
        (self.folder / "x.csv.new").symlink_to("mine")
        self.run_audit("site", "--csv", "x.csv", status=3)
        self.assertEqual((self.folder / "mine").read_text(), "mine")

    def test_a_name_too_long_for_its_files(self):
        self.put("n" * 244 + ".ppm", p3(UNIQUE))
        self.put("o" * 251 + ".ppm", p3(AMBIGUOUS))
        self.put("z.ppm", p3(UNIQUE))
        rows = self.rows("site", "--ppm", "pairs", "--certify", "certs", status=1)
        long, other, z = rows.values()
        self.assertIn("File name too long", long["error"])
        self.assertEqual((long["verdict"], long["fit"], "key" in long), ("error", False, False))
        self.assertEqual((other["verdict"], z["fit"]), ("ambiguous", True))
        self.assertEqual(sorted(os.listdir(self.folder / "pairs")), ["z.ppm.ppm", "z.ppm.ppm.cert"])

    def test_outputs_that_cannot_be_written(self):
        self.put("one.ppm", p3(UNIQUE))
        for words, why in (
            (["--jsonl", "no/rows"], "no/rows.new: No such file"),
            (["--csv", "no/rows"], "no/rows.new: No such file"),
            (["--sqlite", "no/rows"], "no/rows: No such file"),
        ):
            with self.subTest(words):
                self.assertIn(why, self.run_audit("site", *words, "--quiet", status=3).stderr)
        (self.folder / "file").write_text("")
        done = self.run_audit("site", "--certify", "file/x", "--jsonl", "rows", status=3)
        self.assertIn("Not a directory", done.stderr)

    def test_a_full_disk_and_a_closed_pipe(self):
        for number in range(200):
            self.put(f"{number}.ppm", p3(UNIQUE))
        words = self.words("site", "--jsonl", "-")
        with open("/dev/full", "w") as full:
            done = subprocess.run(
                words, cwd=self.folder, env=self.env(), stdout=full, stderr=subprocess.PIPE
            )
        self.assertEqual((done.returncode, b"No space left" in done.stderr), (3, True))
        process = self.start("site", "--jsonl", "-")
        process.stdout.readline()
        process.stdout.close()
        said = process.stderr.read()
        self.assertEqual((process.wait(PATIENCE), "output is closed" in said), (3, True), said)

    def test_report(self):
        self.put("one.ppm", p3(UNIQUE))
        self.put("two.ppm", p3(AMBIGUOUS))
        self.put("blank.ppm", p3(["..", ".."]))
        self.put("same.ppm", p3(UNIQUE))
        self.put("bad.ppm", b"P3 9")
        self.put("photo.jpg", b"")
        title = "Mine & <i>yours</i>"
        self.run_audit("site", "--html", "report.html", "--title", title, status=1)
        page = (self.folder / "report.html").read_text()
        self.assertIn("<h1>Mine &amp; &lt;i&gt;yours&lt;/i&gt;</h1>", page)
        self.assertNotRegex(page, r"""(?:src|href)=["'](?!data:|#)|@import|url\((?!["']?data:)""")
        self.assertRegex(page, r"default-src 'none'")
        self.assertIn("skipped: .jpg 1", page)
        tiles = re.findall(r'class="tile (\w+)"[^>]*>\s*<span[^>]*></span><strong>(\d+)<', page)
        counts = [("fit", "2"), ("flawed", "1"), ("ambiguous", "1"), ("undecided", "0")]
        self.assertEqual(tiles, [*counts, ("error", "1")])
        flaws = re.findall(r'data-flaw="(\d+)"[^>]*>\s*([^<]+) <strong>(\d+)<', page)
        wanted = [("0", "blank pictures", "1"), ("1", "the same clues as another", "1")]
        self.assertEqual(flaws, wanted)
        records = {record[0]: record for record in records_of(page)}
        self.assertEqual(records["bad.ppm"][4], 4)
        self.assertEqual(records["one.ppm"][2:5] + records["one.ppm"][8:9], [2, 2, 0, "a.2b"])
        self.assertEqual(records["two.ppm"][8:10], ["a.2a", ".a2."])
        self.assertEqual((records["blank.ppm"][15], records["same.ppm"][15]), ([0], [1]))

    def test_bars_have_their_heights(self):
        """A bar is as tall as its share of the largest."""
        for number in range(4):
            self.put(f"{number}.ppm", p3(UNIQUE))
        self.put("wide.ppm", p3([".a" * 6, "a." * 6, "." * 12]))
        self.run_audit("site", "--html", "report.html")
        page = (self.folder / "report.html").read_text()
        shares = re.findall(r'<span class="bar [a-z]+" style="--share: ([0-9.]+)"></span>', page)
        self.assertEqual(sorted(map(float, shares)), [0.25, 1.0])
        self.assertRegex(page, r"height: calc\(104px \* var\(--share\)\)")
        self.assertNotIn("max-height: 104px", page)

    def test_a_library_that_is_missing(self):
        self.put("one.png", image("PNG"))
        self.put("two.ppm", p3(UNIQUE))
        # Without the packages of Debian and of the user there are Python's own libraries only.
        words = [sys.executable, "-S", *self.words("site", "--jsonl", "rows.jsonl")[1:]]
        more = {"cwd": self.folder, "env": self.env(), "capture_output": True, "text": True}
        done = subprocess.run(words, **more)
        self.assertEqual(done.returncode, 3)
        self.assertIn("1 not read, since Pillow is not installed (pip install Pillow)", done.stderr)
        rows = self.read("rows.jsonl")
        self.assertEqual((rows["one.png"]["missing"], rows["two.ppm"]["fit"]), ("Pillow", True))
        self.assertNotIn("key", rows["one.png"])
        row = self.rows("site", "--resume", status=0)["one.png"]  # where Pillow is installed
        self.assertEqual(row["verdict"], "unique")
        done = subprocess.run([*words, "--html", "x.html"], **more)
        self.assertIn("Jinja2, which makes the report, is not installed", done.stderr)
        self.assertEqual(done.returncode, 3)
        done = self.run_audit("site", status=3, NONOBENCH_LIBRARY="/nothing.so")
        self.assertIn("cannot load /nothing.so", done.stderr)

    def test_the_current_folder_is_not_run(self):
        self.put("one.png", image("PNG"))
        self.put("one.xml", webpbn(UNIQUE))
        for name in ("resource", "PIL", "defusedxml", "hashlib", "zlib", "struct", "sqlite3"):
            self.put(f"{name}.py", f"open({str(self.folder / 'run')!r}, 'a').write('{name}')")
        source = f"import sys; sys.path.insert(0, {str(ROOT / 'python' / 'src')!r})"
        code = f"{source}; from nonobench.collection import main; sys.exit(main())"
        words = [sys.executable, "-I", "-c", code, "."]
        done = subprocess.run(words, cwd=self.site, capture_output=True, text=True, env=self.env())
        self.assertEqual(done.returncode, 0, done.stderr)
        self.assertFalse((self.folder / "run").exists())


def records_of(page):
    """The records of a report."""
    found = re.search(r'<script type="application/json" id="rows">(.*?)</script>', page, re.DOTALL)
    return json.loads(found[1])


if __name__ == "__main__":
    unittest.main()
