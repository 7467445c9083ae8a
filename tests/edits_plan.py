"""Divides the edits of a crate into runs of the prover, for tests/edits.py."""

import collections

# The most edits in a run, and the most copies of functions, those without an edit among them.
MOST, MOST_COPIES = 12, 20


def copied_runs(edits):
    """Divides the edits that copies can carry into runs. Those of one function are in the same run if they fit, with one control."""
    by_function, runs = collections.defaultdict(list), []
    for edit in edits:
        by_function[edit.changed[0].full].append(edit)
    groups = [found[at : at + MOST - 1] for found in by_function.values() for at in range(0, len(found), MOST - 1)]
    for group in sorted(groups, key=lambda found: -len(found)):
        room = [run for run in runs if copies_of(run) + len(group) + 1 <= MOST_COPIES]
        if room:
            room[0].extend(group)
        else:
            runs.append(list(group))
    return runs


def copies_of(run):
    """Returns how many copies a run has: one for each edit, and a control for each function."""
    return len(run) + len({edit.changed[0] for edit in run})


def separate_runs(edits):
    """Divides edits into runs in which no two conflict: next the edit that fits into the fewest runs."""
    against = {edit: {other for other in edits if other is not edit and edit.conflicts(other)} for edit in edits}
    left, runs, place = {*edits}, [], {}

    def taken(edit):
        return {place[other] for other in against[edit] if other in place}

    while left:
        edit = max(left, key=lambda one: (len(taken(one)), len(against[one]), one.name))
        left.remove(edit)
        free = [at for at, run in enumerate(runs) if at not in taken(edit) and len(run) < MOST]
        if not free:
            free = [len(runs)]
            runs.append([])
        runs[free[0]].append(edit)
        place[edit] = free[0]
    return runs
