"""Sheets for the solvers: by hand, by chance, and as bytes; the library through the driver."""
import struct
import subprocess
from collections import namedtuple

NO_END = 65535
NONE = 4294967295
NAMES = 128
DISJOINT, COVER, SAME = 1, 2, 4
KINDS = {'count': 4, 'inside': 5, 'apart': 6, 'place': 7}

# What an edition sets: most groups, most bytes of a label, kind of its rows and their membership bytes.
Edition = namedtuple('Edition', 'number groups label row_kind membership')
EDITIONS = [Edition(1, 128, 16, 33, 16), Edition(2, 256, 32, 34, 32)]
FIRST = EDITIONS[0]


class Sheet:
    """groups: (parent, lo, hi or None, mode), parents from 1, 0 for the root.
    claims: ('count', set, lo, hi or None), ('inside', 'apart' or 'place', left sets, right sets);
    a set is a group's number, or 0 for the empty one. Labels are filled up to `width` bytes."""

    def __init__(self, groups, claims=(), what='', edition=FIRST, width=0):
        self.groups = list(groups)
        self.claims = list(claims)
        self.what = what
        self.edition = edition
        self.width = width
        self.most = (edition.groups - 1) * 65534  # no finite end of a range is above
        self.numbers = range(1, len(self.groups) + 1)
        self.sons = {g: [s for s in self.numbers if self.groups[s - 1][0] == g]
                     for g in self.numbers}

    def lo(self, g):
        return self.groups[g - 1][1]

    def hi(self, g):
        return self.groups[g - 1][2]

    def mode(self, g):
        return self.groups[g - 1][3]

    def bytes(self):
        named = []

        def name(s):
            if s not in named:
                named.append(s)
            return named.index(s) + 1

        end = lambda hi: NO_END if hi is None else hi
        claims = []
        for c in self.claims:
            if c[0] == 'count':
                claims.append(record(KINDS[c[0]], [name(c[1]), c[2], end(c[3])]))
            else:
                left, right = [name(s) for s in c[1]], [name(s) for s in c[2]]
                claims.append(record(KINDS[c[0]], [len(left), len(right)] + left + right))
        out = record(1, [self.edition.number, len(self.groups), len(named), len(claims)])
        for parent, lo, hi, mode in self.groups:
            out += record(2, [parent, lo, end(hi), mode])
        for i, s in enumerate(named):
            label = (b'N%d' % (i + 1)).rjust(self.width, b'-')
            out += struct.pack('<HHH', 4 + len(label), 3, s) + label
        return out + b''.join(claims)

    def __str__(self):
        lines = ['%s, edition %d' % (self.what, self.edition.number)]
        for g in self.numbers:
            parent, lo, hi, mode = self.groups[g - 1]
            lines.append('group %d: parent %d, %d to %s, mode %d'
                         % (g, parent, lo, '-' if hi is None else hi, mode))
        for i, c in enumerate(self.claims):
            lines.append('claim %d: %s' % (i + 1, c))
        return '\n'.join(lines)


def named_sets(claims):
    """The sets that claims speak of; each of them has one name."""
    return {s for c in claims for s in ([c[1]] if c[0] == 'count' else c[1] + c[2])}


def record(kind, fields):
    return struct.pack('<HH%dH' % len(fields), 2 + 2 * len(fields), kind, *fields)


class Library:
    def __init__(self, driver):
        self.pipe = subprocess.Popen([driver], stdin=subprocess.PIPE, stdout=subprocess.PIPE,
                                     text=True)

    def ask(self, line):
        self.pipe.stdin.write(line + '\n')
        self.pipe.stdin.flush()
        refusal, second, reply = self.pipe.stdout.readline().split()
        return int(refusal), int(second), b'' if reply == '-' else bytes.fromhex(reply)

    def ranges(self, sheet):
        """None for an impossible sheet, else (least, greatest or None) for each group."""
        refusal, second, reply = self.ask('r %d %s' % (20 * len(sheet.groups), sheet.bytes().hex()))
        if refusal == 8:
            return None
        assert (refusal, second) == (0, 20 * len(sheet.groups)), (refusal, second, str(sheet))
        out = []
        for g in range(len(sheet.groups)):
            length, kind, least, greatest, _, _ = struct.unpack_from('<HHIIII', reply, 20 * g)
            assert (length, kind) == (18, 17)
            out.append((least, None if greatest == NONE else greatest))
        return out

    def claim(self, sheet, number):
        """None for an impossible sheet, else whether the claim holds and the runs shown, None where no sets are: those
        of a denial, and of a place's yes."""
        refusal, second, reply = self.ask('c %d %d %s' % (6 + 14 * len(sheet.groups), number, sheet.bytes().hex()))
        if refusal == 8:
            return None
        assert refusal == 0, (refusal, second, str(sheet))
        length, kind, verdict = struct.unpack_from('<HHH', reply)
        assert (length, kind) == (4, 18) and verdict in (0, 1)
        if (verdict == 1) != (sheet.claims[number - 1][0] == 'place'):
            assert second == 6
            return verdict == 1, None
        assert second == 6 + 14 * len(sheet.groups)
        return verdict == 1, [struct.unpack_from('<IIH', reply, 6 + 14 * g + 4)
                              for g in range(len(sheet.groups))]


def shown_sets(runs):
    return [set(range(first, first + count)) | ({0} if mark else set())
            for first, count, mark in runs]


def fits(sheet, sets):
    of = lambda g: sets[g - 1]
    for g in sheet.numbers:
        parent, lo, hi, mode = sheet.groups[g - 1]
        sons = [of(s) for s in sheet.sons[g]]
        if parent and not of(g) <= of(parent):
            return False
        if mode & SAME and any(s != of(g) for s in sons):
            return False
        if mode & COVER and not of(g) <= set().union(*sons):
            return False
        if mode & DISJOINT and sum(map(len, sons)) != len(set().union(*sons)):
            return False
        if len(of(g)) < lo or (hi is not None and len(of(g)) > hi):
            return False
    return True


def may_show(claim, sets):
    """Whether a reply may show these sets: they break the claim, or member 0 is where a place has it."""
    of = lambda s: sets[s - 1] if s else set()
    if claim[0] == 'count':
        n = len(of(claim[1]))
        return n < claim[2] or (claim[3] is not None and n > claim[3])
    left = set().union(*map(of, claim[1]))
    right = set().union(*map(of, claim[2]))
    if claim[0] == 'place':
        return all(0 in of(s) for s in claim[1]) and 0 not in right
    return bool(left - right) if claim[0] == 'inside' else bool(left & right)


def by_hand():
    """The worked sheets of document 01, its traps, and sheets where counts alone decide."""
    count = lambda s, lo, hi: ('count', s, lo, hi)
    inside = lambda a, b: ('inside', a, b)
    apart = lambda a, b: ('apart', a, b)
    place = lambda a, b: ('place', a, b)
    s = Sheet
    return [
        s([(0, 10, 12, 3), (1, 0, 5, 0), (1, 2, 6, 0), (2, 3, None, 0)],
          [count(2, 4, 5), apart([4], [3]), inside([2], [4])], 'printed case'),
        s([(0, 0, 3, 1), (1, 2, None, 0), (1, 2, None, 0)], [], 'disjoint root hi 3'),
        s([(0, 0, 4, 1), (1, 2, None, 0), (1, 2, None, 0)], [apart([2], [3])],
          'disjoint root hi 4'),
        s([(0, 0, None, 2)], [count(1, 0, 0)], 'cover leaf, lo 0'),
        s([(0, 1, None, 2)], [], 'cover leaf, lo 1'),
        s([(0, 0, 7, 5), (1, 0, 7, 0), (1, 0, None, 0)], [apart([1], [1]), count(2, 0, 0)],
          'same with disjoint, two sons'),
        s([(0, 2, 7, 5), (1, 3, 9, 0)], [inside([1], [2]), apart([1], [2]), count(1, 3, 7)],
          'one son: merely equal'),
        s([(0, 5, 5, 0), (1, 0, 5, 0), (1, 5, 5, 0)],
          [inside([2], [3]), inside([3], [2]), inside([1], [3])], 'counts force inside'),
        s([(0, 5, None, 2), (1, 0, 3, 0), (1, 0, 2, 0)], [apart([2], [3])], 'cover, root lo 5'),
        s([(0, 4, None, 2), (1, 0, 3, 0), (1, 0, 2, 0)], [apart([2], [3])], 'cover, root lo 4'),
        s([(0, 0, None, 0)], [count(1, 0, 65534), count(1, 0, None)], 'root without upper end'),
        s([(0, 0, 4, 0), (1, 0, 4, 0)],
          [inside([0], [1]), inside([0], [0]), apart([0], [0]), apart([0], [1]), inside([1], [0]),
           inside([1], [0, 1]), count(0, 0, 0), count(0, 1, 5), place([0], [1]), place([1, 0], [2]),
           place([1], [0]), place([1], [0, 2]), place([1], [1])], 'the empty-set name'),
        s([(0, 5, 5, 2), (1, 3, 5, 0), (1, 3, 5, 0)], [count(2, 3, 5), count(2, 3, 4)],
          'trap: sons of a cover-only root capped'),
        s([(0, 5, 5, 1), (1, 0, 3, 0), (1, 0, 1, 0)], [count(2, 1, 3), count(2, 0, 3)],
          'trap: least raised under disjoint without cover'),
        s([(0, 0, 9, 4), (1, 0, 9, 0), (1, 0, 9, 0)], [inside([1], [2]), inside([2], [3])],
          'trap: ancestry alone'),
        s([(0, 2, 2, 2), (1, 0, 1, 0), (1, 0, 1, 0), (1, 0, 1, 0)],
          [apart([2], [3]), apart([3], [4]), inside([2], [3, 4]), inside([1], [2, 3]),
           inside([1], [2, 3, 4]), place([2, 3], [0]), place([2, 4], [3]), place([3, 4], [2]),
           place([2, 3, 4], [0]), place([1], [2, 3]), place([1], [2, 3, 4])],
          'cover root of 2 over three sons of 1'),
        s([(0, 4, 4, 0), (1, 4, 4, 0), (2, 4, 4, 0), (1, 0, 4, 0)],
          [inside([4], [3]), inside([1], [3]), inside([3], [4])], 'equal deep in the tree'),
        s([(0, 0, None, 2), (1, 0, 65534, 0), (1, 0, 65534, 0)],
          [count(1, 0, 65534), count(1, 0, None), count(2, 0, 65534)], 'counts above 65,534'),
        s([(0, 0, 65534, 0)], [count(1, 0, 65534), count(1, 0, 65533)], 'hi 65,534'),
    ]


def at_limit(edition):
    """As many groups as the edition has: sons of one group, with the greatest ends that can be, and a chain."""
    n = edition.groups
    star = lambda root, son: [root] + [son] * (n - 1)
    chain = lambda hi: [(0, 0, hi, 0)] + [(g, 0, None, 0) for g in range(1, n - 1)] + [(n - 1, 5, None, 0)]
    claims = [('count', 1, 0, 65534), ('count', 1, 0, None), ('apart', [2], [n]), ('apart', [1], [n]),
              ('inside', [n], [1]), ('inside', [1], [n]), ('inside', [1], [2, n]), ('place', [1], [n]),
              ('place', [n], [1]), ('place', [2, n], [0]), ('place', [n], list(range(2, 10)))]
    return [Sheet(groups, claims, what, edition, edition.label) for what, groups in [
        ('the greatest end: cover over sons of 65,534', star((0, 0, None, 2), (1, 0, 65534, 0))),
        ('the greatest least: disjoint sons of 65,534', star((0, 0, None, 1), (1, 65534, None, 0))),
        ('one end for all: disjoint cover of 65,534', star((0, 65534, 65534, 3), (1, 1, None, 0))),
        ('no room for the last: disjoint sons of 1', star((0, 0, n - 2, 1), (1, 1, None, 0))),
        ('a chain of equal sets', chain(5)),
        ('a chain with one member to spare', chain(6)),
        ('a chain with one too few', chain(4)),
    ]]


def way_up(parents, g):
    """A group and all above it."""
    return [g] + way_up(parents, parents[g - 1]) if g else []


def random_sheet(rng, n, claims, most=4, edition=FIRST):
    """Bounds drawn around members drawn at random, so that about half are possible."""
    shape = rng.randrange(5)
    parents = [0]
    for i in range(2, n + 1):
        parents.append([i - 1, 1, i // 2, max(1, i - rng.randint(1, 3)), rng.randint(1, i - 1)][shape])
    modes = [rng.choice([0, 1, 2, 3, 0, 2, 3, rng.randrange(8)]) for _ in parents]
    sons = {g: [i + 1 for i, p in enumerate(parents) if p == g] for g in range(1, n + 1)}
    for g in sons:
        if not sons[g]:
            modes[g - 1] &= 5 if rng.random() > 0.6 / n else 7
        elif len(sons[g]) > 1 and modes[g - 1] & 5 == 5 and rng.random() > 0.6 / n:
            modes[g - 1] &= 6
    sizes = [0] * (n + 1)
    for _ in range(rng.randint(0, most)):
        weight = 1 if n < 10 else rng.choice([1, 2, 50, 3000])
        todo = [1]
        while todo:
            g = todo.pop()
            sizes[g] += weight
            mode, below = modes[g - 1], sons[g]
            if not below:
                continue
            if mode & SAME:
                todo += below
            elif mode & DISJOINT:
                if mode & COVER or rng.random() < 0.7:
                    todo.append(rng.choice(below))
            else:
                part = [s for s in below if rng.random() < 0.5]
                if mode & COVER and not part:
                    part = [rng.choice(below)]
                todo += part
    groups = []
    for g in range(1, n + 1):
        k = sizes[g]
        lo, hi = rng.choice([(k, k), (k, None), (0, k), (max(0, k - 1), k + 1), (0, None), (k, k + 1)])
        if rng.random() < 1.0 / n:
            lo += 1
        groups.append((parents[g - 1], min(lo, 65534), hi if hi is None else min(hi, 65534),
                       modes[g - 1]))

    def near(g):
        if rng.random() < 0.05:
            return 0
        family = [g, parents[g - 1] or g] + sons[g] + (sons[parents[g - 1]] if g > 1 else [])
        return rng.choice(family + [rng.randint(1, n)])

    asked = []
    for _ in range(claims):
        g = rng.randint(1, n)
        kind = rng.choice(['count', 'inside', 'inside', 'apart', 'place', 'place'])
        if kind == 'count':
            k = sizes[g]
            asked.append((kind, g, max(0, min(65534, k - rng.randint(0, 2))),
                          rng.choice([None, min(65534, k), min(65534, k + 1)])))
        elif kind == 'inside' and sons[g] and rng.random() < 0.3:
            asked.append((kind, [g], sons[g][:8]))
        elif kind == 'place' and rng.random() < 0.3:
            asked.append((kind, sons[g][:8] or [g], [0]))
        elif kind == 'place' and rng.random() < 0.5:
            way = way_up(parents, g)
            out = [s for s in range(1, n + 1) if s not in way] or [0]
            asked.append((kind, rng.choices(way, k=rng.randint(1, 8)), rng.choices(out, k=rng.randint(1, 8))))
        else:
            asked.append((kind, [near(g) for _ in range(rng.randint(1, 2))],
                          [near(g) for _ in range(rng.randint(1, 3))]))
    while len(named_sets(asked)) > NAMES:
        asked.pop()
    return Sheet(groups, asked, 'by chance', edition, rng.randint(0, edition.label))


def large_tree(n, shape):
    """Parents, groups and sizes of a possible sheet of n groups with bounds that matter, for timing."""
    parents = [0] + [{'chain': i - 1, 'star': 1, 'bushy': (i + 2) // 4}[shape]
                     for i in range(2, n + 1)]
    sons = {g: [i + 1 for i, p in enumerate(parents) if p == g] for g in range(1, n + 1)}
    groups, sizes = [], {1: 20000}
    for g in range(1, n + 1):
        below, k = sons[g], sizes[g]
        mode = 0 if not below else 3 if len(below) > 1 and g % 3 == 1 else 2 if g % 3 == 2 else 0
        for i, s in enumerate(below):
            if mode == 3:
                sizes[s] = k // len(below) + (k % len(below) if i == 0 else 0)
            else:
                sizes[s] = k if mode == 2 and i == 0 else max(1, k - i)
        groups.append((parents[g - 1], max(0, k - 5), k + 5 if g % 4 else None, mode))
    return parents, groups, sizes


def with_names(n, rng):
    """The groups that claims speak of: all, or as many as there may be names, the first and the last group among them."""
    return range(1, n + 1) if n <= NAMES else [1] + sorted(rng.sample(range(2, n), NAMES - 2)) + [n]


def edition_of(n):
    """The first edition that has so many groups."""
    return next(e for e in EDITIONS if n <= e.groups)


def largest(n, shape, rng):
    """With 64 claims of kinds 4 to 6; the first three, one of each kind, are denied."""
    parents, groups, sizes = large_tree(n, shape)
    named = with_names(n, rng)
    asked = []
    for c in range(64):
        g, h = rng.choice(named), rng.choice(named)
        above = next(p for p in way_up(parents, parents[g - 1] or 1) if p in named)
        asked.append([
            ('count', g, max(0, sizes[g] - 5), sizes[g] + 5),
            ('inside', [g, rng.choice(named)], [h, rng.choice(named), above]),
            ('apart', [g], [h, rng.choice(named)])][c % 3])
    asked[:3] = [('count', n, 0, 0), ('inside', [1], [n]), ('apart', [1], [n])]
    return Sheet(groups, asked, '%s of %d' % (shape, n), edition_of(n))


def largest_places(n, shape, rng):
    """With 64 places of 8 names a list, the left ones by turns on one way up and anywhere; the first is a yes."""
    parents, groups, _ = large_tree(n, shape)
    named = with_names(n, rng)
    asked = []
    for c in range(64):
        way = [g for g in way_up(parents, rng.choice(named[:-1]) if c else 1) if g in named]
        left = rng.choices(way if c % 2 == 0 else named, k=8)
        right = [s for s in named if s not in (way if c % 2 == 0 else left)]
        asked.append(('place', left, rng.choices(right, k=8)))
    return Sheet(groups, asked, 'places in a %s of %d' % (shape, n), edition_of(n))
