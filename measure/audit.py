#!/usr/bin/env python3
"""Draws collections, and measures nonobench-audit on them. It needs nonobench's library
(NONOBENCH_LIBRARY, or c/build).

- measure/audit.py draw FOLDER [COUNT [SEED]]: pictures of blobs, 20 by 20 in 2 to 5 colours. Of
  four, three have one solution. One count and one seed (by default 1) always give the same
  pictures: each has a generator seeded by its number.
- measure/audit.py compare FOLDER OTHER: processor time of an audit, and of one more with --resume,
  compared with that of another version, in turn. OTHER is the folder in which its package is
  unpacked, with its library.
- measure/audit.py cluster FOLDER: time of four threads, and of four workers of Dask on this
  machine, with the most memory of a process that judges.
- measure/audit.py killed FOLDER: whether a run that is killed and goes on by --resume has the rows
  of a whole one.
"""

import json
import os
import random
import resource
import shutil
import subprocess
import sys
import tempfile
import threading
import time
from pathlib import Path

sys.dont_write_bytecode = True
ROOT = Path(__file__).resolve().parent.parent
sys.path.insert(0, str(ROOT / "python" / "src"))
import nonobench  # noqa: E402

SIDE = 20
TRIPLES = ("255 255 255", "20 20 20", "200 30 30", "30 90 200", "40 160 60")
ALLOWANCE = 20_000
PROGRAM = [sys.executable, "-m", "nonobench.audit"]


def blobs(rng, colours):
    """Discs of a radius below a fifth of the side."""
    cells = [[0] * SIDE for _ in range(SIDE)]
    for _ in range(SIDE):
        row, col, size = rng.randrange(SIDE), rng.randrange(SIDE), rng.randrange(2, SIDE // 5)
        colour = rng.randrange(colours)
        for r in range(max(0, row - size), min(SIDE, row + size)):
            for c in range(max(0, col - size), min(SIDE, col + size)):
                if (r - row) ** 2 + (c - col) ** 2 <= size * size:
                    cells[r][c] = colour
    return cells


def p3(rows):
    """A P3 text of rows of colours."""
    return (
        f"P3\n{SIDE} {SIDE}\n255\n"
        + "\n".join(TRIPLES[colour] for row in rows for colour in row)
        + "\n"
    ).encode()


def pictures(count, seed):
    """So many pictures: each fourth is ambiguous, and the others have one solution."""
    number = 0
    waiting = {nonobench.Ruling.UNIQUE: [], nonobench.Ruling.AMBIGUOUS: []}
    for at in range(count):
        wanted = nonobench.Ruling.AMBIGUOUS if at % 4 == 3 else nonobench.Ruling.UNIQUE
        while not waiting[wanted]:
            source = random.Random(f"{seed} {number}")
            number += 1
            text = p3(blobs(source, source.randint(2, 5)))
            ruling = nonobench.verdict(text, ALLOWANCE).ruling
            if ruling in waiting:
                waiting[ruling].append(text)
        yield waiting[wanted].pop(0)


def draw(folder, count=20_000, seed=1):
    """Draws a collection, five hundred pictures to a folder."""
    shutil.rmtree(folder, ignore_errors=True)
    for at, text in enumerate(pictures(int(count), seed)):
        path = Path(folder, f"{at // 500:03}", f"puzzle-{at:05}.ppm")
        path.parent.mkdir(parents=True, exist_ok=True)
        path.write_bytes(text)


def spent(words, **more):
    """The seconds of processors that a command takes."""
    env = {
        **os.environ,
        "PYTHONPATH": str(ROOT / "python" / "src"),
        "PYTHONDONTWRITEBYTECODE": "1",
        **more,
    }
    before = resource.getrusage(resource.RUSAGE_CHILDREN)
    subprocess.run(words, env=env, stdout=subprocess.DEVNULL, check=False)
    after = resource.getrusage(resource.RUSAGE_CHILDREN)
    return after.ru_utime + after.ru_stime - before.ru_utime - before.ru_stime


def compare(folder, other):
    """Three turns of both. Their verdicts are the same."""
    old = next(Path(other).rglob("libnonobench.so"))
    package = next(Path(other).rglob("nonobench/collection")).parent.parent
    theirs = {"PYTHONPATH": str(package), "NONOBENCH_LIBRARY": str(old)}
    with tempfile.TemporaryDirectory() as work:
        times = {(name, again): [] for name in ("new", "old") for again in (False, True)}
        for _ in range(3):
            for name, more in (("old", theirs), ("new", {})):
                words = [*PROGRAM, folder, "--quiet", "--jobs", "1", "--jsonl", f"{work}/{name}"]
                Path(work, name).unlink(missing_ok=True)
                times[name, False].append(spent(words, **more))
                times[name, True].append(spent([*words, "--resume"], **more))
        verdicts = [
            {Path(row["file"]).name: row["verdict"] for row in map(json.loads, lines)}
            for lines in (Path(work, name).read_text().splitlines() for name in ("old", "new"))
        ]
        assert verdicts[0] == verdicts[1], "the verdicts differ"
    count = len(verdicts[0])
    for (name, again), each in times.items():
        what = "again with --resume" if again else "a first run"
        print(f"{name}, {what}: {1000 * min(each) / count:.3f} ms of processors each")
    ratio = min(times["new", False]) / min(times["old", False])
    print(f"{count} puzzles: {ratio:.2f} times, load {os.getloadavg()[0]:.0f}")


def below(pid):
    """All processes below one."""
    parents = {}
    for path in Path("/proc").glob("[0-9]*/stat"):
        try:
            parents[int(path.parent.name)] = int(path.read_text().rpartition(") ")[2].split()[1])
        except OSError:  # it has ended
            pass
    found = {pid}
    while more := {one for one, parent in parents.items() if parent in found} - found:
        found |= more
    return found - {pid}


class Watch(threading.Thread):
    """Notes the most memory of a process that judges, and the processor time of all processes."""

    def __init__(self):
        super().__init__(daemon=True)
        self.most, self.seconds, self.is_over = 0, {}, False

    def run(self):
        while not self.is_over:
            for pid in below(os.getpid()):
                try:
                    self.look(Path(f"/proc/{pid}"))
                except OSError:
                    pass
            time.sleep(0.2)

    def look(self, process):
        """Reads what the system says of a process."""
        words = process.joinpath("stat").read_text().rpartition(") ")[2].split()
        self.seconds[process.name] = sum(map(int, words[11:13])) / os.sysconf("SC_CLK_TCK")
        if b"collection.judging" in process.joinpath("cmdline").read_bytes():
            status = process.joinpath("status").read_text()
            self.most = max(self.most, int(status.partition("VmPeak:")[2].split()[0]) >> 10)


def watched(words):
    """A run: its seconds by the clock, those of processors, and the most MiB of a process."""
    watch = Watch()
    watch.start()
    begun = time.monotonic()
    env = {**os.environ, "PYTHONPATH": str(ROOT / "python" / "src")}
    subprocess.run(words, env=env, stdout=subprocess.DEVNULL, check=False)
    took = time.monotonic() - begun
    watch.is_over = True
    watch.join()
    return took, sum(watch.seconds.values()), watch.most


def cluster(folder):
    """Four threads, and four workers of Dask, each a process. Their rows are the same."""
    from distributed import LocalCluster

    os.environ["PYTHONPATH"] = str(ROOT / "python" / "src")
    words = [*PROGRAM, folder, "--quiet", "--max-guesses", "2000", "--jsonl"]
    with tempfile.TemporaryDirectory() as work:
        print(
            "four threads: %.1f s, of processors %.1f; at most %d MiB"
            % watched([*words, f"{work}/threads", "--jobs", "4"])
        )
        with LocalCluster(n_workers=4, threads_per_worker=1, dashboard_address=None) as workers:
            more = ["--scheduler", workers.scheduler_address]
            print(
                "four workers: %.1f s, of processors %.1f; at most %d MiB"
                % watched([*words, f"{work}/workers", *more])
            )
        texts = {Path(work, name).read_bytes() for name in ("threads", "workers")}
    assert len(texts) == 1, "the rows differ"
    print(f"the same rows, load {os.getloadavg()[0]:.0f}")


def killed(folder):
    """Kills a run once it has half of its rows, and goes on."""
    words = [*PROGRAM, folder, "--quiet", "--max-guesses", "2000", "--jsonl"]
    env = {**os.environ, "PYTHONPATH": str(ROOT / "python" / "src")}
    with tempfile.TemporaryDirectory() as work:
        whole, other = Path(work, "whole"), Path(work, "other")
        subprocess.run([*words, whole], env=env, check=False)
        count = whole.read_bytes().count(b"\n")
        run = subprocess.Popen([*words, other], env=env)
        while not other.exists() or other.read_bytes().count(b"\n") < count // 2:
            time.sleep(0.1)
        run.kill()
        run.wait()
        kept = other.read_bytes().count(b"\n")
        subprocess.run([*words, other, "--resume"], env=env, check=False)
        assert other.read_bytes() == whole.read_bytes(), "the rows differ"
    print(f"killed after {kept} of {count} rows: the same rows")


def main():
    calls = {"draw": draw, "compare": compare, "cluster": cluster, "killed": killed}
    words = sys.argv[1:]
    if len(words) < 2 or words[0] not in calls:
        sys.exit(__doc__)
    calls[words[0]](*words[1:])


if __name__ == "__main__":
    main()
