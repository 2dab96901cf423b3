"""The questions of a sheet, put to solvers that nobody here wrote.

cvc5 gets the meaning itself: finite sets with cardinality. z3 and GLPK get sizes: numbers f(g) are
the counts of some sets that meet the structural rules exactly when
    f(son) <= f(parent); f(son) = f(parent) under 'same'; sum of f(sons) <= f(g) under 'disjoint';
    f(g) <= sum of f(sons) under 'cover'.
Whether a member can be in some place is asked with a second such table m of zeros and ones for that
member, the others' sizes f, and lo <= f + m <= hi.

A question on a claim is whether its reply shows sets: some that fit break it, or have a place's member."""
import subprocess

from sheets import COVER, DISJOINT, SAME


class Unanswered(Exception):
    pass


# cvc5 over sets.

class Cvc5Sets:
    name = 'cvc5 (sets)'

    def __init__(self, sheet):
        self.sheet = sheet
        lines = ['(set-logic ALL)', '(set-option :incremental true)']
        lines.append('(define-fun e () (Set Int) (as set.empty (Set Int)))')
        lines.append('(declare-const x Int)')
        for g in sheet.numbers:
            lines.append('(declare-const s%d (Set Int))' % g)
        for g in sheet.numbers:
            parent, lo, hi, mode = sheet.groups[g - 1]
            sons = sheet.sons[g]
            if parent:
                lines.append('(assert (set.subset s%d s%d))' % (g, parent))
            if mode & SAME:
                lines += ['(assert (= s%d s%d))' % (s, g) for s in sons]
            if mode & COVER:
                lines.append('(assert (set.subset s%d %s))' % (g, union(sons)))
            if mode & DISJOINT:
                lines += ['(assert (= (set.inter s%d s%d) e))' % (a, b)
                          for a in sons for b in sons if a < b]
            lines.append('(assert (>= (set.card s%d) %d))' % (g, lo))
            if hi is not None:
                lines.append('(assert (<= (set.card s%d) %d))' % (g, hi))
        self.lines = lines
        self.asked = 0

    def check(self, what=None):
        self.lines.append('(push 1)')
        if what:
            self.lines.append('(assert %s)' % what)
        self.lines += ['(check-sat)', '(pop 1)']
        self.asked += 1

    def answers(self, limit=20):
        text = '\n'.join(self.lines) + '\n'
        try:
            run = subprocess.run(['cvc5', '--lang', 'smt2', '-'], input=text, capture_output=True,
                                 text=True, timeout=limit)
        except subprocess.TimeoutExpired:
            raise Unanswered
        out = run.stdout.split()
        if len(out) != self.asked or any(a not in ('sat', 'unsat') for a in out):
            if 'error' in run.stdout + run.stderr:
                raise RuntimeError(run.stdout + run.stderr + text)
            raise Unanswered
        return [a == 'sat' for a in out]

    def shown(self, claim):
        of = lambda s: 's%d' % s if s else 'e'
        if claim[0] == 'count':
            low = '(< (set.card %s) %d)' % (of(claim[1]), claim[2])
            if claim[3] is None:
                return low
            return '(or %s (> (set.card %s) %d))' % (low, of(claim[1]), claim[3])
        if claim[0] == 'place':
            has = lambda sets: ' '.join('(set.member x %s)' % of(s) for s in sets)
            return '(and true %s (not (or false %s)))' % (has(claim[1]), has(claim[2]))
        left, right = union([s for s in claim[1] if s]), union([s for s in claim[2] if s])
        if claim[0] == 'inside':
            return '(not (set.subset %s %s))' % (left, right)
        return '(not (= (set.inter %s %s) e))' % (left, right)

    def end(self, g, op, k):
        return '(%s (set.card s%d) %d)' % (op, g, k)


def union(groups):
    out = 'e'
    for g in groups:
        out = 's%d' % g if out == 'e' else '(set.union %s s%d)' % (out, g)
    return out


def ends_questions(sheet, ranges):
    """For each end of each range: (group, comparison, number, the answer it must have)."""
    for i, (least, greatest) in enumerate(ranges):
        yield i + 1, '=', least, True
        yield i + 1, '<', least, False
        if greatest is None:
            yield i + 1, '>', sheet.most, True
        else:
            yield i + 1, '=', greatest, True
            yield i + 1, '>', greatest, False


def member_sought(claim):
    """Where the member is whom shown sets have: in some group of each list, and in none of the last groups."""
    kind, left, right = claim
    groups = lambda sets: sorted({s for s in sets if s})
    if kind == 'inside':
        return [groups(left)], groups(right)
    if kind == 'apart':
        return [groups(left), groups(right)], []
    return [groups([s]) for s in left], groups(right)


# z3 over sizes.

class Z3Sizes:
    name = 'z3 (sizes)'

    def __init__(self, sheet):
        import z3
        self.z3 = z3
        self.sheet = sheet
        self.solver = z3.Solver()
        self.f = self.table('f')
        self.members = None

    def table(self, letter):
        z3, s = self.z3, self.sheet
        f = {g: z3.Int('%s%d' % (letter, g)) for g in s.numbers}
        for g in s.numbers:
            parent, mode, sons = s.groups[g - 1][0], s.mode(g), [f[i] for i in s.sons[g]]
            self.solver.add(f[g] >= 0)
            if parent:
                self.solver.add(f[g] <= f[parent])
            if mode & SAME:
                for x in sons:
                    self.solver.add(x == f[g])
            if mode & DISJOINT:
                self.solver.add(z3.Sum(sons) <= f[g] if sons else z3.BoolVal(True))
            if mode & COVER:
                self.solver.add(f[g] <= z3.Sum(sons) if sons else f[g] <= 0)
        return f

    def bounds(self, total):
        for g in self.sheet.numbers:
            self.solver.add(total(g) >= self.sheet.lo(g))
            if self.sheet.hi(g) is not None:
                self.solver.add(total(g) <= self.sheet.hi(g))

    def plain(self):
        self.bounds(lambda g: self.f[g])
        return self

    def marked(self):
        self.members = self.table('m')
        for g in self.sheet.numbers:
            self.solver.add(self.members[g] <= 1)
        self.bounds(lambda g: self.f[g] + self.members[g])
        return self

    def check(self, *what):
        self.solver.push()
        self.solver.add(*what)
        answer = self.solver.check()
        self.solver.pop()
        if answer == self.z3.unknown:
            raise Unanswered
        return answer == self.z3.sat

    def end(self, g, op, k):
        x = self.f[g]
        return self.check(x == k if op == '=' else x < k if op == '<' else x > k)

    def found(self, g, what):
        self.solver.push()
        self.solver.add(what)
        answer = self.solver.check()
        out = False
        if answer == self.z3.sat:
            out = self.solver.model()[self.f[g]].as_long()
        self.solver.pop()
        if answer == self.z3.unknown:
            raise Unanswered
        return out

    def at_most(self, g, k):
        return self.found(g, self.f[g] <= k)

    def at_least(self, g, k):
        return self.found(g, self.f[g] >= k)

    def count_shown(self, claim):
        _, g, lo, hi = claim
        if g == 0:
            return lo > 0
        x = self.f[g]
        return self.check(self.z3.Or(x < lo, x > hi) if hi is not None else x < lo)

    def member_shown(self, claim):
        within, without = member_sought(claim)
        return self.check(*[self.z3.Or([self.members[g] == 1 for g in some]) for some in within],
                          *[self.members[g] == 0 for g in without])


# GLPK over sizes: an integer programme.

class GlpkSizes:
    name = 'GLPK (sizes)'
    CAP = 40_000_000   # stands for no upper end; above twice every finite end, since others may take as many

    def __init__(self, sheet, marked=False):
        import swiglpk as glp
        self.glp = glp
        self.sheet = sheet
        glp.glp_term_out(glp.GLP_OFF)
        self.p = glp.glp_create_prob()
        n = len(sheet.groups)
        self.n = n
        glp.glp_add_cols(self.p, 2 * n if marked else n)
        for g in sheet.numbers:
            glp.glp_set_col_kind(self.p, g, glp.GLP_IV)
            if marked:
                glp.glp_set_col_bnds(self.p, g, glp.GLP_DB, 0, self.CAP)
                glp.glp_set_col_kind(self.p, n + g, glp.GLP_IV)
                glp.glp_set_col_bnds(self.p, n + g, glp.GLP_DB, 0, 1)
        self.bad = False
        for g in sheet.numbers:
            lo, hi = sheet.lo(g), sheet.hi(g)
            if hi is not None and lo > hi:
                self.bad = True
                continue
            if marked:
                self.row([(g, 1), (n + g, 1)], lo, self.CAP if hi is None else hi)
            else:
                self.column(g, lo, self.CAP if hi is None else hi)
        for first in (0, n) if marked else (0,):
            for g in sheet.numbers:
                parent, mode, sons = sheet.groups[g - 1][0], sheet.mode(g), sheet.sons[g]
                if parent:
                    self.row([(first + parent, 1), (first + g, -1)], 0, None)
                if mode & SAME:
                    for s in sons:
                        self.row([(first + g, 1), (first + s, -1)], 0, 0)
                below = [(first + s, -1) for s in sons]
                if mode & DISJOINT:
                    self.row([(first + g, 1)] + below, 0, None)
                if mode & COVER:
                    self.row([(first + g, 1)] + below, None, 0)

    def __del__(self):
        self.glp.glp_delete_prob(self.p)

    def column(self, c, lo, hi):
        self.glp.glp_set_col_bnds(self.p, c, self.glp.GLP_FX if lo == hi else self.glp.GLP_DB, lo, hi)

    def row(self, terms, lo, hi):
        glp = self.glp
        r = glp.glp_add_rows(self.p, 1)
        kind = (glp.GLP_UP if lo is None else glp.GLP_LO if hi is None else
                glp.GLP_FX if lo == hi else glp.GLP_DB)
        glp.glp_set_row_bnds(self.p, r, kind, lo or 0, hi or 0)
        index, value = glp.intArray(len(terms) + 1), glp.doubleArray(len(terms) + 1)
        for i, (c, v) in enumerate(terms):
            index[i + 1], value[i + 1] = c, v
        glp.glp_set_mat_row(self.p, r, len(terms), index, value)
        return r

    def drop(self, rows):
        index = self.glp.intArray(len(rows) + 1)
        for i, r in enumerate(rows):
            index[i + 1] = r
        self.glp.glp_del_rows(self.p, len(rows), index)

    def solve(self):
        """True: solved; False: nothing fits."""
        if self.bad:
            return False
        glp = self.glp
        parm = glp.glp_iocp()
        glp.glp_init_iocp(parm)
        parm.presolve = glp.GLP_ON
        parm.msg_lev = glp.GLP_MSG_OFF
        code = glp.glp_intopt(self.p, parm)
        if code == glp.GLP_ENOPFS:
            return False
        status = glp.glp_mip_status(self.p)
        if code == 0 and status == glp.GLP_OPT:
            return True
        if code == 0 and status == glp.GLP_NOFEAS:
            return False
        raise Unanswered

    def best(self, g, way):
        glp = self.glp
        glp.glp_set_obj_dir(self.p, way)
        glp.glp_set_obj_coef(self.p, g, 1)
        if not self.solve():
            return None
        value = round(glp.glp_mip_obj_val(self.p))
        glp.glp_set_obj_coef(self.p, g, 0)
        return value

    def range(self, g):
        least = self.best(g, self.glp.GLP_MIN)
        greatest = self.best(g, self.glp.GLP_MAX)
        return least, None if greatest > self.sheet.most else greatest

    def count_shown(self, claim):
        _, g, lo, hi = claim
        if g == 0:
            return lo > 0
        least, greatest = self.range(g)
        return least < lo or (hi is not None and (greatest is None or greatest > hi))

    def member_shown(self, claim):
        within, without = member_sought(claim)
        if not all(within):
            return False
        terms = lambda groups: [(self.n + g, 1) for g in groups]
        rows = [self.row(terms(some), 1, None) for some in within]
        if without:
            rows.append(self.row(terms(without), 0, 0))
        answer = self.solve()
        self.drop(rows)
        return answer


# cvc5 over sizes, one process that stays; for benchmarks.

class Cvc5Sizes:
    name = 'cvc5 (sizes)'

    def __init__(self, sheet, marked=False):
        self.pipe = subprocess.Popen(['cvc5', '--lang', 'smt2', '--incremental', '-'],
                                     stdin=subprocess.PIPE, stdout=subprocess.PIPE, text=True)
        self.sheet = sheet
        lines = ['(set-logic QF_LIA)', '(set-option :produce-models true)']
        for t in 'fm' if marked else 'f':
            for g in sheet.numbers:
                lines += ['(declare-const %s%d Int)' % (t, g), '(assert (>= %s%d 0))' % (t, g)]
            for g in sheet.numbers:
                parent, mode, sons = sheet.groups[g - 1][0], sheet.mode(g), sheet.sons[g]
                total = '(+ 0 0 %s)' % ' '.join('%s%d' % (t, s) for s in sons)
                if parent:
                    lines.append('(assert (<= %s%d %s%d))' % (t, g, t, parent))
                if mode & SAME:
                    lines += ['(assert (= %s%d %s%d))' % (t, s, t, g) for s in sons]
                if mode & DISJOINT:
                    lines.append('(assert (<= %s %s%d))' % (total, t, g))
                if mode & COVER:
                    lines.append('(assert (<= %s%d %s))' % (t, g, total))
        for g in sheet.numbers:
            count = '(+ f%d m%d)' % (g, g) if marked else 'f%d' % g
            lines.append('(assert (>= %s %d))' % (count, sheet.lo(g)))
            if sheet.hi(g) is not None:
                lines.append('(assert (<= %s %d))' % (count, sheet.hi(g)))
            if marked:
                lines.append('(assert (<= m%d 1))' % g)
        self.send('\n'.join(lines))

    def send(self, text):
        self.pipe.stdin.write(text + '\n')

    def read(self):
        self.pipe.stdin.flush()
        return self.pipe.stdout.readline().strip()

    def close(self):
        self.pipe.stdin.close()
        self.pipe.wait()
        self.pipe.stdout.close()

    def check(self, what, value=None):
        """False, or True, or the value of a variable where one is asked for."""
        self.send('(push 1)\n(assert %s)\n(check-sat)' % what)
        answer = self.read()
        if answer not in ('sat', 'unsat'):
            raise Unanswered
        out = answer == 'sat'
        if out and value:
            self.send('(get-value (%s))' % value)
            out = int(self.read().strip('()').split()[1])
        self.send('(pop 1)')
        return out

    def at_most(self, g, k):
        return self.check('(<= f%d %d)' % (g, k), 'f%d' % g)

    def at_least(self, g, k):
        return self.check('(>= f%d %d)' % (g, k), 'f%d' % g)

    def count_shown(self, claim):
        _, g, lo, hi = claim
        if g == 0:
            return lo > 0
        return self.check('(or (< f%d %d) %s)' % (g, lo, '(> f%d %d)' % (g, hi) if hi is not None else 'false'))

    def member_shown(self, claim):
        within, without = member_sought(claim)
        some = lambda groups: '(or false false %s)' % ' '.join('(= m%d 1)' % g for g in groups)
        return self.check('(and true %s (not %s))' % (' '.join(map(some, within)), some(without)))


def claims_shown(plain, marked, sheet):
    """The answers of a solver on all claims, by its model of sizes and the one with a member's place."""
    return [plain.count_shown(c) if c[0] == 'count' else marked.member_shown(c) for c in sheet.claims]


def search_range(model, g):
    """Both ends by bisection; model.at_most and at_least give False or a count found."""
    most = model.sheet.most
    low, found = -1, model.at_most(g, most)
    while found - low > 1:
        k = (low + found) // 2
        got = model.at_most(g, k)
        low, found = (k, found) if got is False else (low, got)
    least = found
    if model.at_least(g, most + 1) is not False:
        return least, None
    found, high = least, most + 1
    while high - found > 1:
        k = (found + high + 1) // 2
        got = model.at_least(g, k)
        found, high = (found, k) if got is False else (got, high)
    return least, found
