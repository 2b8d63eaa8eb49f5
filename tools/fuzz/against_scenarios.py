"""Whether what is told here of scripts is what the scenarios of the repository say, whose transcripts were written by hand."""

import scenarios
import scripts
from figures import Figures
from following import Follow, Unfit


def compared():
    """The figures; a failure for each scenario that differs."""
    figures = Figures()
    for case in scenarios.all_cases():
        if case.words != ["replay"]:
            continue
        status, _, errors = case.status.partition(" ")
        try:
            Follow(figures).run(scripts.lines_of(case.script), case.transcript.splitlines(), int(status), errors and errors + "\n")
            figures.count("scenarios", "as they are told here")
        except Unfit as why:
            figures.failures[f"{case.name}: {why}"] += 1
    return figures
