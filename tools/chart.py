"""The chart of the ten jobs, docs/pictures/jobs.svg, from the table in docs/SPEED.md: for tools/diagrams.py."""
import math
import re
from pathlib import Path

from drawing import COLOURS, DARK, GREY, LETTER, opening, shape, text

ROOT = Path(__file__).resolve().parent.parent
PAGE = ROOT / "docs/SPEED.md"
# What the columns of the table after the job and its description are called in the chart.
SERIES = ("run", "serve", "mutex, notified at each write", "stm, -N1", "stm, -N4")
ROW = re.compile(r"^\| ([a-z -]+) \| [^|]+" + r"\| (\d+) \(\d+\) " * len(SERIES) + r"\|$", re.MULTILINE)
# Nanoseconds at the lines of the scale, which is logarithmic.
SCALE = (20, 50, 100, 200, 500, 1000, 2000, 5000)
MARGIN, TOP, LINE, WIDE, DOT = 24, 104, 26, 560, 5


def rows():
    """The jobs, each with the nanoseconds of the series."""
    return [(job, tuple(map(int, times))) for job, *times in ROW.findall(PAGE.read_text(encoding="utf-8"))]


def jobs_picture():
    """A line for each job, and on it a dot for each series."""
    jobs = rows()
    left = MARGIN + max(len(job) for job, _ in jobs) * LETTER + 16
    bottom = TOP + LINE * len(jobs)
    place = lambda time: left + WIDE * math.log(time / SCALE[0]) / math.log(SCALE[-1] / SCALE[0])
    yield opening(left + WIDE + 2 * MARGIN, bottom + MARGIN, "The ten jobs")
    yield shape("rect", width=left + WIDE + 2 * MARGIN, height=bottom + MARGIN, fill="#ffffff")
    yield text(MARGIN, 30, "The ten jobs", 15, weight="bold")
    yield text(MARGIN, 48, "nanoseconds per transaction, less is better; from the table in docs/SPEED.md", 11, GREY)
    at = MARGIN
    for name, colour in zip(SERIES, COLOURS):
        yield shape("circle", cx=at + DOT, cy=66, r=DOT, fill=colour)
        yield text(at + 3 * DOT, 70, name, 11)
        at += len(name) * LETTER + 8 * DOT
    for time in SCALE:
        yield shape("line", x1=place(time), y1=TOP - 8, x2=place(time), y2=bottom, stroke="#e3e7ec")
        yield text(place(time) - len(str(time)) * LETTER / 2, TOP - 14, str(time), 11, GREY)
    for number, (job, times) in enumerate(jobs):
        y = TOP + LINE * number + LINE / 2
        yield shape("line", x1=left, y1=y, x2=left + WIDE, y2=y, stroke="#cccccc")
        yield text(MARGIN, y + 4, job, 11, DARK)
        for name, colour, time in zip(SERIES, COLOURS, times):
            yield shape("circle", f"{job}, {name}: {time} ns", cx=place(time), cy=y, r=DOT, fill=colour)
    yield "</svg>"
