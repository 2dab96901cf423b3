"""Holds the library to cvc5, z3 and GLPK: possibility, ranges, claims.

    compare.py DRIVER [--seed N] [--small N] [--large N]

N small sheets, of both editions by turns, and N large ones of each edition: of 20 to 128 groups and of 129 to 256.
A disagreement prints the sheet and ends the run with status 1. A question that a solver leaves
unanswered in its time is not counted; more than two in a hundred of them fail the run."""
import argparse
import random
import sys
from collections import Counter

from models import Cvc5Sets, GlpkSizes, Unanswered, Z3Sizes, claims_shown, ends_questions
from sheets import EDITIONS, FIRST, KINDS, Library, at_limit, by_hand, fits, may_show, random_sheet, shown_sets

tally, missing = Counter(), Counter()
VERDICT = '%s claims, %s'
POSSIBLE = {True: 'possible', False: 'impossible'}
SETS_CHECKED = 'replies whose sets were checked'
OVER = ', over %d groups' % FIRST.groups  # what only edition 2 has is counted by itself


def over(sheet):
    return OVER if len(sheet.groups) > FIRST.groups else ''


def sheets_counted(size, edition, possible):
    return '%s sheets of edition %d, %s' % (size, edition.number, POSSIBLE[possible])


def differ(sheet, solver, what):
    print('DISAGREEMENT with %s: %s\nsheet in hex: %s\n%s'
          % (solver, what, sheet.bytes().hex(), sheet))
    sys.exit(1)


def agree(sheet, solver, what, ours, theirs):
    """One answer; it is counted under what comes before the colon."""
    if ours != theirs:
        differ(sheet, solver, '%s: library %s, solver %s' % (what, ours, theirs))
    tally['%s: %s%s' % (solver, what.split(':')[0], over(sheet))] += 1


def agree_claims(sheet, solver, ours, answers):
    for claim, holds, shown, theirs in zip(sheet.claims, ours.holds, ours.shown, answers):
        agree(sheet, solver, VERDICT % (claim[0], 'hold' if holds else 'denied') + ': %s' % (claim,), shown, theirs)


class Ours:
    """What the library says of a sheet, with the sets that it shows checked."""

    def __init__(self, library, sheet, expand):
        self.ranges = library.ranges(sheet)
        self.possible = self.ranges is not None
        said = [library.claim(sheet, i + 1) for i in range(len(sheet.claims))]
        for i, v in enumerate(said):
            if (v is not None) != self.possible:
                differ(sheet, 'itself', 'claim %d: possible or not' % (i + 1))
        if not self.possible:
            return
        self.holds, self.shown = [v[0] for v in said], [v[1] is not None for v in said]
        for i, (_, runs) in enumerate(said):
            if runs is not None and (expand or sum(r[1] for r in runs) < 100000):
                sets = shown_sets(runs)
                if not fits(sheet, sets) or not may_show(sheet.claims[i], sets):
                    differ(sheet, 'plain check', 'sets shown of claim %d: %s' % (i + 1, runs))
                tally[SETS_CHECKED + over(sheet)] += 1


def with_cvc5(sheet, ours):
    name = Cvc5Sets.name
    model = Cvc5Sets(sheet)
    model.check()
    ends = []
    if ours.possible:
        ends = list(ends_questions(sheet, ours.ranges))
        for g, op, k, _ in ends:
            model.check(model.end(g, op, k))
        for c in sheet.claims:
            model.check(model.shown(c))
    answers = model.answers()
    agree(sheet, name, POSSIBLE[ours.possible], ours.possible, answers.pop(0))
    for g, op, k, want in ends:
        agree(sheet, name, 'range end: group %d %s %d' % (g, op, k), want, answers.pop(0))
    if ours.possible:
        agree_claims(sheet, name, ours, answers)


def with_z3(sheet, ours):
    name = Z3Sizes.name
    model = Z3Sizes(sheet).plain()
    agree(sheet, name, POSSIBLE[ours.possible], ours.possible, model.check())
    if not ours.possible:
        return
    for g, op, k, want in ends_questions(sheet, ours.ranges):
        agree(sheet, name, 'range end: group %d %s %d' % (g, op, k), want, model.end(g, op, k))
    agree_claims(sheet, name, ours, claims_shown(model, Z3Sizes(sheet).marked(), sheet))


def with_glpk(sheet, ours):
    name = GlpkSizes.name
    model = GlpkSizes(sheet)
    agree(sheet, name, POSSIBLE[ours.possible], ours.possible, model.solve())
    if not ours.possible:
        return
    for g, r in enumerate(ours.ranges):
        agree(sheet, name, 'range: group %d' % (g + 1), r, model.range(g + 1))
    agree_claims(sheet, name, ours, claims_shown(model, GlpkSizes(sheet, marked=True), sheet))


def main():
    options = argparse.ArgumentParser()
    options.add_argument('driver')
    options.add_argument('--seed', type=int, default=4)
    options.add_argument('--small', type=int, default=300)
    options.add_argument('--large', type=int, default=24)
    o = options.parse_args()
    rng = random.Random(o.seed)
    library = Library(o.driver)
    sheets = [(s, 'small', [with_cvc5, with_z3, with_glpk]) for s in by_hand()]
    for i in range(o.small):
        n = rng.randint(1, 6)
        sheets.append((random_sheet(rng, n, 4, edition=EDITIONS[i % 2]), 'small', [with_cvc5, with_z3, with_glpk]))
    for edition in EDITIONS:
        sheets += [(s, 'large', [with_z3, with_glpk]) for s in at_limit(edition)]
        for i in range(o.large):
            n = edition.groups if i % 4 == 0 else rng.randint(20 if edition == FIRST else FIRST.groups + 1, edition.groups)
            s = random_sheet(rng, n, 24, 12, edition)
            sheets.append((s, 'large', [with_z3, with_glpk] if i % 3 == 0 else [with_glpk]))
    for s, size, solvers in sheets:
        ours = Ours(library, s, size == 'small' and all(g[1] < 1000 for g in s.groups))
        tally[sheets_counted(size, s.edition, ours.possible)] += 1
        for solver in solvers:
            try:
                solver(s, ours)
            except Unanswered:
                missing[solver.__name__] += 1
    for k in sorted(tally):
        print('  %s: %d' % (k, tally[k]))
    for k in missing:
        print('  left unanswered: %s on %d sheets' % (k, missing[k]))
    if any(50 * n > len(sheets) for n in missing.values()):
        print('too many questions left unanswered')
        sys.exit(1)
    agreed = sum(n for k, n in tally.items() if ' (sets): ' in k or ' (sizes): ' in k)
    wanted = [sheets_counted(size, edition, possible) for size in ('small', 'large') for edition in EDITIONS
              for possible in POSSIBLE]
    models = [(Cvc5Sets, ''), (Z3Sizes, ''), (GlpkSizes, ''), (Z3Sizes, OVER), (GlpkSizes, OVER)]
    wanted += ['%s: %s%s' % (model.name, possible, size) for model, size in models for possible in POSSIBLE.values()]
    wanted += ['%s: %s%s' % (model.name, 'range' if model == GlpkSizes else 'range end', size) for model, size in models]
    wanted += ['%s: %s%s' % (model.name, VERDICT % (kind, verdict), size) for model, size in models
               for kind in KINDS for verdict in ('hold', 'denied')]
    wanted += [SETS_CHECKED, SETS_CHECKED + OVER]
    unmet = [k for k in wanted if not tally[k]]
    if unmet:
        print('never met: ' + '; '.join(unmet))
        sys.exit(1)
    print('solvers: %d answers agree on %d sheets, seed %d' % (agreed, len(sheets), o.seed))


main()
