"""Tests of `Worker`: cd python && python3 -m unittest tests/test_worker.py

INTERRUPTS=number is how many calls are interrupted, else 200; the seed is 1 (SEED=number).
"""

import contextlib
import gc
import os
import random
import shutil
import signal
import subprocess
import sys
import tempfile
import textwrap
import threading
import time
import unittest
import unittest.mock
from pathlib import Path

sys.path.insert(0, str(Path(__file__).resolve().parent))
from processes import children, is_running, only_child, seen  # noqa: E402

import nonobench  # noqa: E402
from nonobench import (  # noqa: E402
    CertificateError,
    Given,
    GivensError,
    LengthError,
    PictureError,
    UnpublishedGivenError,
)

PACKAGE = Path(nonobench.__file__).resolve().parent.parent
LIBRARY = Path(os.environ.get("NONOBENCH_LIBRARY", PACKAGE / "nonobench" / "libnonobench.so"))
# Two rows, black and white, white and black: another picture has the clues, and a given decides it.
DIAGONAL = b"P3 2 2 255 0 0 0 255 255 255 255 255 255 0 0 0\n"
GIVEN = b"nonocert 2\ngiven 1 1\nline r 1\nline c 1\nline r 2\ndone\n"
LEMMAS = b"nonolemma 1\ngiven 1 1\nline r 1\nline c 1\nline r 2\ndone\n"
TILE = b"P3 1 1 1 0 0 0"
# A chequerboard of 60 by 60 cells in four colours, whose verdict takes longer than anybody waits.
INKS = ("1 1 1", "0 0 0", "1 0 0", "0 0 1")
ENDLESS = f"P3 60 60 1 {' '.join(INKS[(at // 60 + at % 60) % 4] for at in range(3600))}\n".encode()


def run_program(program, **more):
    """Runs a program of Python that may use the package and these tests' helpers."""
    folders = os.pathsep.join([str(PACKAGE), str(Path(__file__).resolve().parent)])
    return subprocess.run(
        [sys.executable, "-c", textwrap.dedent(program)],
        env={**os.environ, "PYTHONPATH": folders, **more},
        capture_output=True,
        text=True,
        check=False,
    )


class Workers(unittest.TestCase):
    """Questions to another process."""

    def test_answers_and_errors(self):
        with nonobench.Worker(seconds=300) as worker:
            self.assertEqual(
                worker.check(DIAGONAL, GIVEN, published=[(1, 1)]).givens, (Given(1, 1),)
            )
            with self.assertRaises(UnpublishedGivenError) as caught:
                worker.check(DIAGONAL, GIVEN)
            self.assertEqual(caught.exception.givens, (Given(1, 1),))
            self.assertEqual(worker.clues(DIAGONAL), nonobench.clues(DIAGONAL))
            self.assertEqual(worker.verdict(DIAGONAL, 5), nonobench.verdict(DIAGONAL))
            self.assertEqual(worker.certify(TILE), nonobench.certify(TILE))
            self.assertEqual(worker.audit(TILE, 9), nonobench.audit(TILE))
            self.assertEqual(worker.audit(DIAGONAL), nonobench.audit(DIAGONAL))
            self.assertEqual(worker.prove(TILE), nonobench.prove(TILE))
            self.assertEqual(worker.prove(DIAGONAL), nonobench.prove(DIAGONAL))
            self.assertEqual(
                str(worker.check(TILE, worker.prove(TILE).certificate)),
                "certificate accepted\n",
            )
            self.assertEqual(
                worker.check(DIAGONAL, LEMMAS, published=b"given 1 1\n").givens,
                (Given(1, 1),),
            )
            with self.assertRaisesRegex(GivensError, "^givens Place at line 1$"):
                worker.check(DIAGONAL, LEMMAS, published=[(1, 3)])
            with self.assertRaises(UnpublishedGivenError) as caught:
                worker.check(DIAGONAL, LEMMAS)
            self.assertEqual((caught.exception.line, caught.exception.givens), (2, (Given(1, 1),)))
            with self.assertRaises(LengthError):
                worker.check(DIAGONAL, LEMMAS.ljust(16777217))
            with self.assertRaises(CertificateError) as caught:
                worker.check(DIAGONAL, b"")
            self.assertEqual((caught.exception.name, caught.exception.line), ("NotCert", 1))
            with self.assertRaisesRegex(PictureError, "^ppm NotP3 at byte 0$"):
                worker.clues(b"")
            with self.assertRaises(ValueError):
                worker.verdict(DIAGONAL, -1)
            with self.assertRaises(ValueError):
                worker.clues(DIAGONAL, (1, 2, 65536))

    def test_time(self):
        # A verdict that nobody waits for, and a certificate for which the stream has no room.
        for seconds, question in (
            (0.2, ("verdict", ENDLESS)),
            (0.001, ("check", DIAGONAL, b" " * 16777216)),
        ):
            with nonobench.Worker(seconds=seconds) as worker, self.assertRaisesRegex(
                TimeoutError, f"^no answer within {seconds} seconds$"
            ):
                answer_of(worker, *question)
        with nonobench.Worker(seconds=2) as worker:
            with self.assertRaises(TimeoutError):
                worker.verdict(ENDLESS)
            found = None
            while not found:  # a process that starts may itself need more than two seconds
                with contextlib.suppress(TimeoutError):
                    found = worker.clues(DIAGONAL)
            self.assertEqual(found, nonobench.clues(DIAGONAL))

    def test_a_program_that_fails(self):
        # The library goes after this program has loaded it.
        with tempfile.TemporaryDirectory() as folder:
            library = Path(shutil.copy(LIBRARY, folder))
            program = f"""
                import os, nonobench
                worker = nonobench.Worker(seconds=300)
                os.remove({str(library)!r})
                try:
                    worker.clues({DIAGONAL!r})
                except RuntimeError as error:
                    print(error)
            """
            run = run_program(program, NONOBENCH_LIBRARY=str(library))
            self.assertIn("the worker's program failed", run.stdout)

    def test_no_standard_streams(self):
        # A program may have closed its own: then the stream has their numbers.
        program = f"""
            import os, nonobench
            for at in range(3):
                os.close(at)
            worker = nonobench.Worker(seconds=300)
            os._exit(0 if worker.clues({DIAGONAL!r}) == nonobench.clues({DIAGONAL!r}) else 1)
        """
        self.assertEqual(run_program(program).returncode, 0)

    def test_memory(self):
        # The question alone takes more than is left beside the interpreter.
        with nonobench.Worker(seconds=300, memory=40 << 20) as worker:
            with self.assertRaises(MemoryError):
                worker.check(DIAGONAL, b" " * 16777216)
        with nonobench.Worker(seconds=300) as worker, self.assertRaises(CertificateError):
            worker.check(DIAGONAL, b" " * 16777216)
        # The answer alone takes more than there is.
        for memory in (1, 20):
            with nonobench.Worker(seconds=300, memory=memory) as worker:
                for _ in range(2):
                    with self.assertRaisesRegex(MemoryError, "larger than its memory"):
                        worker.clues(DIAGONAL)

    def test_what_is_told_where_the_status_is_lost(self):
        """Where a program ignores the end of its processes, none has a status, and no Python is
        missing for that."""
        before = signal.signal(signal.SIGCHLD, signal.SIG_IGN)
        self.addCleanup(signal.signal, signal.SIGCHLD, before)
        with nonobench.Worker(seconds=300, memory=40 << 20, processor=200) as worker:
            for _ in range(2):
                with self.assertRaisesRegex(MemoryError, "^the worker ended$"):
                    worker.check(DIAGONAL, b" " * 16777216)
                self.assertEqual(worker.clues(DIAGONAL), nonobench.clues(DIAGONAL))
        with nonobench.Worker(seconds=300, processor=1) as worker, self.assertRaisesRegex(
            TimeoutError, "^no answer within its processor time$"
        ):
            worker.verdict(ENDLESS)
        for program in ("/bin/true", "/bin/echo", "/bin/cat"):
            with (
                self.subTest(program),
                unittest.mock.patch.object(sys, "executable", program),
                self.assertRaisesRegex(OSError, "needs a Python"),
            ):
                nonobench.Worker().clues(TILE)

    def test_bounds(self):
        for bounds in (
            {"memory": "x"},
            {"memory": 1.5},
            {"memory": None},
            {"seconds": "5"},
            {"seconds": None},
        ):
            with self.assertRaises(TypeError):
                nonobench.Worker(**bounds)
        for bounds in (
            {"memory": 0},
            {"memory": -1},
            {"memory": 1 << 63},
            {"seconds": 0},
            {"seconds": -1},
            {"seconds": float("nan")},
            {"seconds": 1e300},
        ):
            with self.assertRaises(ValueError):
                nonobench.Worker(**bounds)

    def test_a_process_that_ended_is_replaced(self):
        with nonobench.Worker(seconds=300) as worker:
            pid = only_child(lambda: worker.clues(DIAGONAL))
            os.kill(pid, signal.SIGKILL)
            while is_running(pid):
                time.sleep(0.01)
            self.assertEqual(worker.clues(DIAGONAL), nonobench.clues(DIAGONAL))

    def test_threads(self):
        asked = [(DIAGONAL, 0), (DIAGONAL, 1), (TILE,)]
        answers = []
        with nonobench.Worker(seconds=300) as worker:
            threads = [
                threading.Thread(
                    target=lambda words=words: answers.extend(
                        (words, worker.verdict(*words)) for _ in range(50)
                    )
                )
                for words in asked
            ]
            for thread in threads:
                thread.start()
            for thread in threads:
                thread.join()
        self.assertEqual(len(answers), 150)
        wanted = {words: nonobench.verdict(*words) for words in asked}
        for words, verdict in answers:
            self.assertEqual(verdict, wanted[words])

    def test_the_wait_for_a_turn_counts(self):
        """Twenty calls of a second each, none of which is answered, end long before the twenty
        seconds that they would take one after another."""
        ended = []
        with nonobench.Worker(seconds=1) as worker:

            def ask():
                with self.assertRaisesRegex(TimeoutError, "^no answer within 1 seconds$"):
                    worker.verdict(ENDLESS)
                ended.append(time.monotonic())

            threads = [threading.Thread(target=ask) for _ in range(20)]
            begun = time.monotonic()
            for thread in threads:
                thread.start()
            for thread in threads:
                thread.join()
        self.assertEqual(len(ended), 20)
        self.assertLess(max(ended) - begun, 15)

    def test_a_program_that_is_no_python(self):
        for program in ("", None, "/bin/true", "/bin/sh"):
            with self.subTest(program), unittest.mock.patch.object(sys, "executable", program):
                with self.assertRaisesRegex(
                    OSError,
                    f"^a Worker needs a Python in sys.executable, and not {program!r}$",
                ):
                    nonobench.Worker().clues(TILE)


class Interrupt(BaseException):
    """What the alarm raises."""


# Questions of many answers, so that an answer to another one is seen.
QUESTIONS = (
    ("check", TILE, b"junk"),
    ("check", TILE, b"nonocert 1\nline r 1\ndone\n"),
    ("check", DIAGONAL, GIVEN),
    ("clues", DIAGONAL),
    ("verdict", DIAGONAL, 0),
    ("verdict", DIAGONAL, 1),
    ("verdict", TILE),
    ("check", TILE, b"nonolemma 2\nline r1\ndone\n"),
    ("check", DIAGONAL, LEMMAS, None, b"given 1 1\n"),
    ("prove", TILE),
    ("prove", DIAGONAL),
    ("certify", TILE),
    ("audit", DIAGONAL),
)


def answer_of(asked, name, *words):
    """What somebody answers to a question, or the error."""
    try:
        return getattr(asked, name)(*words)
    except nonobench.NonobenchError as error:
        return str(error)


class Interrupts(unittest.TestCase):
    """Exceptions while a call waits."""

    def setUp(self):
        def strike(*_):
            raise Interrupt

        kept = signal.signal(signal.SIGALRM, strike)
        self.addCleanup(signal.signal, signal.SIGALRM, kept)

    def test_no_answer_is_that_of_another_question(self):
        source = random.Random(int(os.environ.get("SEED", "1")))
        most = int(os.environ.get("INTERRUPTS", "200"))
        wanted = {question: answer_of(nonobench, *question) for question in QUESTIONS}
        struck = compared = 0
        before = set(children(os.getpid()))  # another test's may be there
        with nonobench.Worker(seconds=300) as worker:
            begun = time.perf_counter()
            answer_of(worker, *QUESTIONS[0])
            usual = time.perf_counter() - begun
            while struck < most:
                # Half of the moments lie in the time of an answer, the others in that of a process
                # that starts.
                moment = source.random() * source.choice([0.001, usual])
                try:
                    # Once; should Python swallow it, as it does what is raised while it takes an
                    # object away, then again in a minute.
                    signal.setitimer(signal.ITIMER_REAL, moment + 1e-6, 60)
                    while True:
                        question = source.choice(QUESTIONS)
                        answer = answer_of(worker, *question)
                        self.assertEqual(answer, wanted[question])
                        compared += 1
                except Interrupt:
                    signal.setitimer(signal.ITIMER_REAL, 0)
                    struck += 1
                if source.random() < 0.5:
                    question = source.choice(QUESTIONS)
                    self.assertEqual(answer_of(worker, *question), wanted[question])
                    compared += 1
        self.assertGreater(compared, most / 3)
        print(f"{struck} calls interrupted, {compared} answers compared")
        gc.collect()
        self.assertEqual(set(children(os.getpid())) - before, set())

    def test_what_a_handler_raises_is_raised(self):
        def late(*_):
            raise TimeoutError("the handler's own")

        signal.signal(signal.SIGALRM, late)
        with nonobench.Worker(seconds=300) as worker:
            os.kill(only_child(lambda: worker.clues(DIAGONAL)), signal.SIGSTOP)
            signal.setitimer(signal.ITIMER_REAL, 0.2)
            with self.assertRaisesRegex(TimeoutError, "^the handler's own$"):
                worker.clues(DIAGONAL)

    def test_a_handler_asks_while_a_call_waits(self):
        answers = []
        with nonobench.Worker(seconds=300) as worker:
            pid = only_child(lambda: worker.clues(DIAGONAL))
            os.kill(pid, signal.SIGSTOP)

            def ask(*_):
                answers.append(worker.clues(DIAGONAL))
                os.kill(pid, signal.SIGCONT)

            signal.signal(signal.SIGALRM, ask)
            signal.setitimer(signal.ITIMER_REAL, 0.2)
            answers.append(worker.clues(DIAGONAL))
        self.assertEqual(answers, [nonobench.clues(DIAGONAL)] * 2)

    def test_a_handler_closes_while_a_call_waits(self):
        with nonobench.Worker(seconds=300) as worker:
            pid = only_child(lambda: worker.clues(DIAGONAL))
            os.kill(pid, signal.SIGSTOP)

            def close(*_):
                worker.close()
                self.addCleanup(
                    os.close, os.open(os.devnull, os.O_RDONLY)
                )  # where a number is free, this has it

            signal.signal(signal.SIGALRM, close)
            signal.setitimer(signal.ITIMER_REAL, 0.2)
            with self.assertRaisesRegex(RuntimeError, "closed while it was asked"):
                worker.clues(DIAGONAL)
            self.assertFalse(is_running(pid))
            self.assertEqual(worker.clues(DIAGONAL), nonobench.clues(DIAGONAL))

    def test_an_interrupted_process_is_ended(self):
        with nonobench.Worker(seconds=300) as worker:
            pid = only_child(lambda: worker.clues(DIAGONAL))
            os.kill(pid, signal.SIGSTOP)
            signal.setitimer(signal.ITIMER_REAL, 0.2)
            with self.assertRaises(Interrupt):
                worker.clues(DIAGONAL)
            self.assertFalse(is_running(pid))
            self.assertEqual(worker.clues(DIAGONAL), nonobench.clues(DIAGONAL))

    def test_a_child_that_is_forked_asks_a_process_of_its_own(self):
        with nonobench.Worker(seconds=300) as worker:
            pid = only_child(lambda: worker.clues(DIAGONAL))
            os.kill(pid, signal.SIGSTOP)
            # The other thread waits in a call while this one forks.
            asking = threading.Thread(target=lambda: worker.clues(DIAGONAL))
            asking.start()
            child = os.fork()
            if child == 0:
                try:
                    own = only_child(lambda: worker.verdict(TILE))
                    is_good = own != pid and worker.clues(DIAGONAL) == nonobench.clues(DIAGONAL)
                    worker.close()
                    os._exit(0 if is_good else 1)
                finally:
                    os._exit(2)
            self.assertEqual(os.waitpid(child, 0)[1], 0)
            os.kill(pid, signal.SIGCONT)
            asking.join()
            self.assertEqual(worker.clues(DIAGONAL), nonobench.clues(DIAGONAL))
            self.assertTrue(is_running(pid))


class Ends(unittest.TestCase):
    """Processes do not outlive who may ask them."""

    def test_a_worker_that_is_dropped(self):
        def dropped():
            worker = nonobench.Worker(seconds=300)
            worker.me = worker  # a cycle, so that only the collector finds it
            return only_child(lambda: worker.clues(DIAGONAL))

        gc.collect()  # what other tests left
        before = len(os.listdir("/proc/self/fd"))
        pids = [dropped() for _ in range(10)]
        gc.collect()
        for pid in pids:
            self.assert_ends(pid)
        self.assertEqual(len(os.listdir("/proc/self/fd")), before)

    def assert_ends(self, pid, seconds=300):
        """Waits until a process is gone."""
        until = time.monotonic() + seconds
        while is_running(pid) and time.monotonic() < until:
            time.sleep(0.05)
        self.assertFalse(is_running(pid))

    def test_a_program_that_ends(self):
        program = f"""
            import os, signal, nonobench
            from processes import only_child
            worker = nonobench.Worker(seconds=300)
            print(only_child(lambda: worker.clues({DIAGONAL!r})), flush=True)
        """
        for end in ("", "os.kill(os.getpid(), signal.SIGKILL)"):
            run = run_program(textwrap.dedent(program) + end)
            self.assert_ends(int(run.stdout))

    def test_a_program_that_is_killed_during_a_call(self):
        program = f"""
            import sys, nonobench
            sys.path.append({str(Path(__file__).resolve().parent)!r})
            from processes import only_child
            worker = nonobench.Worker(seconds=99999)
            print(only_child(lambda: worker.clues({DIAGONAL!r})), flush=True)
            worker.verdict({ENDLESS!r})
        """
        run = subprocess.Popen(
            [sys.executable, "-c", textwrap.dedent(program)],
            env={**os.environ, "PYTHONPATH": str(PACKAGE)},
            stdout=subprocess.PIPE,
            text=True,
        )
        with run:
            pid = int(run.stdout.readline())
            self.addCleanup(lambda: is_running(pid) and os.kill(pid, signal.SIGKILL))
            while seen(pid).cpu < 1:  # so that it judges
                self.assertTrue(is_running(pid))
                time.sleep(0.05)
            run.kill()
        self.assert_ends(pid, 30)


# What a stranger may have put into the current folder, or into one of PYTHONPATH. Each file says
# that it was run.
HOSTILE = (
    "resource",
    "struct",
    "pickle",
    "ctypes",
    "os",
    "socket",
    "types",
    "json",
    "sitecustomize",
    "usercustomize",
    "encodings",
)


class Folders(unittest.TestCase):
    """Nothing is loaded from the current folder."""

    def test_a_hostile_folder(self):
        with tempfile.TemporaryDirectory() as folder:
            mark = Path(folder, "ran")
            text = (
                f"open({str(mark)!r}, 'a').write(__name__ + '\\n')\nRLIMIT_AS = 9\nsetrlimit ="
                " lambda *a: 0\n"
            )
            for name in HOSTILE:
                Path(folder, f"{name}.py").write_text(text, encoding="utf-8")
            for name in (
                "nonobench/__init__.py",
                "nonobench/_serve.py",
                "nonobench/_library.py",
                "ctypes/__init__.py",
            ):
                Path(folder, name).parent.mkdir(exist_ok=True)
                Path(folder, name).write_text(text, encoding="utf-8")
            Path(folder, "libnonobench.so").write_bytes(b"no library")
            # The program itself looks nowhere there; its worker must not either, though it inherits
            # folder and variables.
            program = textwrap.dedent(
                f"""
                import os, sys
                sys.path += {[str(PACKAGE), str(Path(__file__).resolve().parent)]!r}
                os.environ.update(PYTHONPATH={folder!r}, PYTHONSTARTUP={folder + "/os.py"!r}, PYTHONHOME='')
                import nonobench
                from processes import only_child
                os.chdir({folder!r})
                with nonobench.Worker(seconds=300, memory=1 << 30) as worker:
                    pid = only_child(lambda: print(worker.clues({DIAGONAL!r}), end=""))
                    limits = open(f"/proc/{{pid}}/limits").read()
                print([line for line in limits.splitlines() if "address space" in line][0].split()[3])
            """  # noqa: E501
            )
            run = subprocess.run(
                [sys.executable, "-I", "-c", program],
                cwd="/",
                capture_output=True,
                text=True,
                check=False,
            )
            self.assertEqual(
                (run.stdout, run.stderr),
                (f"{nonobench.clues(DIAGONAL)}{1 << 30}\n", ""),
            )
            self.assertFalse(mark.exists(), mark.exists() and mark.read_text(encoding="utf-8"))

    def test_a_library_that_is_named_from_the_current_folder(self):
        with tempfile.TemporaryDirectory() as folder, tempfile.TemporaryDirectory() as other:
            Path(folder, "named.so").symlink_to(LIBRARY)
            Path(folder, "in").mkdir()
            Path(other, "link").symlink_to(Path(folder, "in"))
            Path(other, "named.so").write_bytes(b"no library")
            program = textwrap.dedent(
                f"""
                import os, sys
                sys.path.append({str(PACKAGE)!r})
                import nonobench
                os.chdir({other!r})
                with nonobench.Worker(seconds=300) as worker:
                    print(worker.clues({DIAGONAL!r}), end="")
            """
            )
            for begun, named in ((folder, "./named.so"), (other, "link/../named.so")):
                run = subprocess.run(
                    [sys.executable, "-I", "-c", program],
                    cwd=begun,
                    capture_output=True,
                    text=True,
                    check=False,
                    env={**os.environ, "NONOBENCH_LIBRARY": named},
                )
                self.assertEqual((run.stdout, run.stderr), (str(nonobench.clues(DIAGONAL)), ""))


if __name__ == "__main__":
    unittest.main()
