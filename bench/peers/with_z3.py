#!/usr/bin/env python3
"""with_z3.py TRACE: the verdict on a small trace that is taken for sound, by z3: a number for each element, and for each
response that the numbers of its names rise. The fewest responses that can't be right together are found by hitting sets:
each set of responses whose removal leaves a solution must be met."""
import sys

import z3
from responses import responses_of


def rising(place: dict, names: list) -> z3.BoolRef:
    """Along a response the numbers of its names rise."""
    return z3.And([place[a] < place[b] for a, b in zip(names, names[1:])])


def fewest(solver: z3.Solver, marks: list) -> list:
    """The fewest marks that can't all hold."""
    choice = z3.Optimize()
    chosen = [z3.Bool(f"chosen {i}") for i in range(len(marks))]
    for each in chosen:
        choice.add_soft(z3.Not(each))
    while True:
        choice.check()
        model = choice.model()
        picked = [i for i, each in enumerate(chosen) if z3.is_true(model.eval(each))]
        if solver.check([marks[i] for i in picked]) == z3.unsat:
            return picked
        kept = list(picked)  # as many more as go together; one of the others must be picked
        for i in range(len(marks)):
            if i not in kept and solver.check([marks[j] for j in kept] + [marks[i]]) == z3.sat:
                kept.append(i)
        choice.add(z3.Or([chosen[i] for i in range(len(marks)) if i not in kept]))


def main() -> None:
    responses = responses_of(sys.argv[1])
    place = {name: z3.Int(name) for _, names in responses for name in names}
    distinct = {tuple(names): by for by, names in reversed(responses) if len(names) > 1}
    solver = z3.Solver()
    marks = []
    for names, by in distinct.items():
        marks.append(z3.Bool(by))
        solver.add(z3.Implies(marks[-1], rising(place, list(names))))
    if solver.check(marks) == z3.sat:
        print("accepted", len(place))
    else:
        core = fewest(solver, marks)
        print("refused", len(core), " ".join(str(marks[i]) for i in core))


if __name__ == "__main__":
    main()
