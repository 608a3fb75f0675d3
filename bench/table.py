"""Prints the measured times as tables in Markdown. Usage: table.py TIMES [--into FILE]

With --into the tables take the place of what stands in FILE between the lines '<!-- measured -->' and '<!-- end -->'."""
import sys

from times import Times

GROWTH_ROWS_APART = 3
BEGIN, END = "<!-- measured -->\n", "<!-- end -->\n"


def row(*cells):
    return "| " + " | ".join(str(c) for c in cells) + " |"


def table(heads, rows):
    return [row(*heads), row(*("---:" if i else "---" for i in range(len(heads)))), *rows, ""]


def number(ns):
    return f"{ns:.2f}" if ns < 10 else f"{ns:.1f}" if ns < 100 else f"{ns:,.0f}"


def case_row(case, by_run=False):
    per = case.entries if case.by_entry() and not by_run else 1
    return row(case.words, f"{case.entries:,}", number(case.library / per), number(case.plain / per), f"{case.ratio():.2f}")


def instructions_rows(times):
    return [
        row(case.words, *(f"{count / entries:.1f}" for count in counts), f"{counts[0] / counts[1]:.2f}")
        for case in times.cases
        if case.key in times.instructions
        for entries, *counts in [times.instructions[case.key]]
    ]


def race_instructions_rows(times):
    return [
        row(case.words, *(f"{count:,}" for count in counts), f"{counts[0] / counts[1]:.2f}")
        for case in times.races
        if case.key in times.instructions
        for _, *counts in [times.instructions[case.key]]
    ]


def copies_rows(copies):
    """Marks that copy the same stand in one row; a foreign load of another age than 0 is told apart."""
    marks = {}
    for mark, aged, calls, size in sorted(copies):
        marks.setdefault((calls, size), []).append(f"{mark} at an age above 0" if aged else str(mark))
    return [row(", ".join(names), calls, f"{size:,}") for (calls, size), names in marks.items()]


def lines(times):
    out = [f"Machine: {times.notes['machine']}. Plain C by {times.notes['compiler']}, -O2. The least of {times.notes['repeats']} samples in each of {times.notes['processes']} processes.", ""]
    heads = ("library, ns", "plain C, ns", "ratio")
    out += table(("for an entry", "entries", *heads), [case_row(c) for c in times.cases if c.by_entry()])
    out += table(("for a run", "entries", *heads), [case_row(c) for c in times.cases if not c.by_entry()])
    out += table(("a run of which it is only asked whether it races", "entries", *heads), [case_row(c, by_run=True) for c in times.races])
    grown = [row(f"{int(n):,}", number(a), number(b), f"{a / b:.2f}") for n, a, b in times.growth[::GROWTH_ROWS_APART]]
    out += table(("a run of this many entries, one core after the other", *heads), grown)
    out += table(("instructions for an entry", "library", "plain C", "ratio"), instructions_rows(times))
    out += table(("instructions for a run of which it is only asked whether it races", "library", "plain C", "ratio"), race_instructions_rows(times))
    out += table(("copied by the library at an entry with mark", "calls of memcpy", "bytes"), copies_rows(times.copies))
    stack = [row(f"`ferrulique_{question}`: bytes, from the return address down", *(f"{n:,}" for n in sizes)) for question, sizes in times.stack.items()]
    out += table(("stack", "library", "plain C"), stack)
    return "\n".join(out)


def put_into(path, text):
    with open(path, encoding="utf-8") as f:
        before, rest = f.read().split(BEGIN)
    after = rest.split(END)[1]
    with open(path, "w", encoding="utf-8") as f:
        f.write(before + BEGIN + "\n" + text + "\n" + END + after)


def main():
    text = lines(Times(sys.argv[1]))
    if sys.argv[2:3] == ["--into"]:
        put_into(sys.argv[3], text)
    else:
        print(text)


main()
