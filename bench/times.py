"""Reads what bench/run has measured: a file of lines, each with a word first that says what it holds."""


class Case:
    """One case: its entries, and the time of a run in nanoseconds, by the library and by plain C."""

    def __init__(self, key, entries, library, plain, *words):
        self.key, self.words = key, " ".join(words)
        self.entries, self.library, self.plain = int(entries), float(library), float(plain)

    def least(self, other):
        """The same case from another process."""
        self.library, self.plain = min(self.library, other.library), min(self.plain, other.plain)

    def ratio(self):
        return self.library / self.plain

    def by_entry(self):
        """A run of many entries is told by the entry."""
        return self.entries > 100


class Times:
    """Of a case that several processes have timed, the least times."""

    def __init__(self, path):
        by_key, raced, grown = {}, {}, {}
        self.copies, self.instructions, self.stack = [], {}, {}
        self.notes = {}
        with open(path, encoding="utf-8") as lines:
            for line in lines:
                kind, rest = line.rstrip("\n").split(" ", 1)
                if kind in ("case", "race"):
                    case = Case(*rest.split(" "))
                    (by_key if kind == "case" else raced).setdefault(case.key, case).least(case)
                elif kind == "grow":
                    entries, *times = (float(x) for x in rest.split())
                    grown[entries] = [min(pair) for pair in zip(times, grown.get(entries, times))]
                else:
                    self.take(kind, rest)
        self.cases, self.races = list(by_key.values()), list(raced.values())
        self.growth = [(entries, *times) for entries, times in grown.items()]

    def take(self, kind, rest):
        if kind == "copies":
            self.copies.append(tuple(int(x) for x in rest.split()))
        elif kind == "instructions":
            key, *counts = rest.split()
            self.instructions[key] = tuple(int(x) for x in counts)
        elif kind == "stack":
            question, *sizes = rest.split()
            self.stack[question] = tuple(int(x) for x in sizes)
        else:
            self.notes[kind] = rest

    def growth_by_entry(self, column):
        """Nanoseconds that an entry more costs: the slope between the first run and the last; column 1 is the library, 2 plain C."""
        first, last = self.growth[0], self.growth[-1]
        return (last[column] - first[column]) / (last[0] - first[0])
