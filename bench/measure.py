"""Processor times. Unlike the time on the clock, they leave out the time in which other processes have the processor."""
import pathlib
import resource
import subprocess

ROOT = pathlib.Path(__file__).resolve().parents[1]
DATA = ROOT / "target" / "bench"


def spent(words, given=""):
    """What a program prints, and the seconds that it takes."""

    def used():
        usage = resource.getrusage(resource.RUSAGE_CHILDREN)
        return usage.ru_utime + usage.ru_stime

    before = used()
    done = subprocess.run(words, input=given, stdout=subprocess.PIPE, stderr=subprocess.STDOUT, text=True, check=True)
    return done.stdout, used() - before


def stages(last, repeats, text):
    """What the proved program `stages` prints, and the seconds that it takes to do the stages up to the last one so often."""
    return spent([ROOT / "target/bin/stages"], f"stages={last},{repeats}\n{text}")


WRITTEN, PRINTED = 8, 9


def reference(text):
    """The result text of the same decomposition in Rust."""
    return spent([DATA / "reference", "lists", "text"], text)[0]


def run(text):
    """The result of the proved run on a layer text, by its keys, and the seconds from the text to the result text. A short run is repeated
    in one process, so often that the start of the process does not count."""
    printed, seconds = stages(PRINTED, 1, text)
    result = dict(line.split("=") for line in printed.splitlines())
    if seconds < 0.02:
        repeats = 1
        while seconds < 0.05:
            repeats *= 4
            seconds = stages(WRITTEN, repeats, text)[1]
        seconds = min([seconds] + [stages(WRITTEN, repeats, text)[1] for _ in range(2)]) / repeats
    return result, seconds


def shown(seconds):
    """A time with two digits and its unit."""
    rounded = float(f"{seconds:.2g}")
    unit, size = next((unit, size) for unit, size in (("s", 1), ("ms", 1e-3), ("µs", 1e-6)) if rounded >= size or unit == "µs")
    return f"{round(rounded / size, 1):g} {unit}"
