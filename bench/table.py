"""The table of a part, and the sections of bench/RESULTS.md."""
import os
import re
import sqlite3
import subprocess

from callers import HOST, TOP

HEAD = """# What bench/run measured

Each section is of one run on one machine, and tells which. Its aims are ratios of rates in that run; what keeps those that aren't met stands in
`docs/DECISIONS.md` ('How fast')."""


class Table:
    """What a part measured, told as it comes."""

    def __init__(self):
        self.rows = []
        self.aims = []

    def aim(self, what, measured, least):
        shown = f"{measured:.2f}" if measured >= 0.1 else f"{measured:.3f}"
        self.aims.append((what, f"{least} or more", shown, "met" if measured >= least else "not met"))
        print(f"aim: {what}: {least} or more, measured {shown}", flush=True)

    def row(self, what, value, unit, notes=""):
        shown = f"{value:.0f}" if value >= 100 else f"{value:.3g}"
        self.rows.append((what, f"{shown} {unit}", notes))
        print(f"{what:<70} {shown:>10} {unit:<10} {notes}", flush=True)

    def missing(self, what, why):
        self.rows.append((what, "missing", why))
        print(f"{what:<70} {'missing':>10}            {why}", flush=True)


def machine():
    with open("/proc/cpuinfo") as it:
        model = next((line.split(":", 1)[1].strip() for line in it if line.startswith("model name")), "unknown processor")
    with open("/proc/meminfo") as it:
        memory = int(it.readline().split()[1]) >> 20
    commit = subprocess.run(["git", "-C", TOP, "describe", "--always", "--dirty"], capture_output=True, text=True).stdout.strip()
    return f"{os.cpu_count()} processors ({model}), {memory} GiB of memory, Linux {os.uname().release}, commit {commit}"


def section_of(table, how):
    """The text of a part's section below its heading."""
    program = "the program of `./durable --build`" if HOST == os.path.join(TOP, "out", "durable") else "a program that `DURABLE` named"
    told = f"{machine()}, {program}. SQLite {sqlite3.sqlite_version}. {how}"
    if table.aims:
        told += "\n\n| aim | wanted | measured | |\n|---|---|---|---|\n" + "\n".join("| " + " | ".join(aim) + " |" for aim in table.aims)
    return told + "\n\n| what | measured | beside others |\n|---|---|---|\n" + "\n".join("| " + " | ".join(row) + " |" for row in table.rows)


def sections_in(text):
    """The sections by their headings, in order."""
    cut = re.split(r"^## (.*)\n", text, flags=re.MULTILINE)
    return {heading: body.strip("\n") for heading, body in zip(cut[1::2], cut[2::2])}


def write_section(results, headings, heading, text, keeps):
    """Puts a section in the place of the one that stands under this heading, which goes below 'Before' where it is to be kept. The sections of
    parts stand first, in their order."""
    sections = {}
    if os.path.exists(results):
        with open(results) as it:
            sections = sections_in(it.read())
    if keeps and heading in sections:
        sections["Before"] = f"### {heading}\n\n{sections[heading]}\n\n" + sections.get("Before", "")
    sections[heading] = text
    order = [name for name in headings if name in sections] + [name for name in sections if name not in headings]
    with open(results + ".new", "w") as out:
        out.write(HEAD + "".join(f"\n\n## {name}\n\n{sections[name]}" for name in order) + "\n")
    os.replace(results + ".new", results)
