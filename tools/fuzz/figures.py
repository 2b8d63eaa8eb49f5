"""What was tried and what came of it, and the failures."""

import collections

SHOWN = 3  # failures of a kind that are written and printed, of each job

INPUTS = ("queries of scripts", "answers of scripts", "transfers of scripts", "NOTIFYs of scripts", "mutated scripts",
          "answers of the upstream", "transfers of a server")


class Figures:
    """`tried`: how many inputs of a kind went to a server; of those of scripts each has an outcome."""

    def __init__(self):
        self.tried, self.outcomes, self.failures = collections.Counter(), collections.Counter(), collections.Counter()

    def count(self, kind, outcome, more=1):
        if more:
            self.outcomes[kind, outcome] += more

    def add(self, other):
        self.tried += other.tried
        self.outcomes += other.outcomes
        self.failures += other.failures

    def of_kind(self, kind):
        """Its outcomes with their counts, the most frequent first; what has no outcome had no reply."""
        found = [(outcome, count) for (one, outcome), count in self.outcomes.most_common() if one == kind]
        silent = self.tried[kind] - sum(count for _, count in found) if kind in self.tried else 0
        return [*found, ("no reply", silent)] if silent else found

    def inputs(self):
        """How many inputs there were, of servers and of scripts."""
        return sum(self.tried.values()) + sum(sum(count for _, count in self.of_kind(kind)) for kind in INPUTS)

    def lines(self):
        kinds = sorted({*self.tried, *(kind for kind, _ in self.outcomes)})
        for kind in kinds:
            found = self.of_kind(kind)
            yield f"{kind}: {sum(count for _, count in found):,}: " + ", ".join(f"{outcome} {count:,}" for outcome, count in found)


class Findings:
    """Writes what caused a failure into a file, and prints it. `next_number`: gives the number of the next file."""

    def __init__(self, figures, next_number):
        self.figures, self.next_number = figures, next_number

    def add(self, said, text):
        """`said`: what failed, the same for all failures of a kind. `text`: the octets of the file."""
        self.figures.failures[said] += 1
        if self.figures.failures[said] > SHOWN:
            return
        name = f"fuzz-failure-{self.next_number()}.txt"
        with open(name, "wb") as file:
            file.write(text)
        print(f"FAILS  {said}: {name}", flush=True)
