"""Makes the sheets and registers, runs the measurements, prints them as Markdown and draws PLOT.

    report.py FOLDER OPS STACK DRIVER CHECK PLOT FLAGS [registers]     FOLDER for both; FLAGS are shown as they are; with
                                                                       'registers' their part alone"""
import itertools
import os
import random
import statistics
import struct
import subprocess
import sys
import time

sys.path.insert(0, os.path.join(os.path.dirname(os.path.abspath(__file__)), '..', 'tests', 'solvers'))
from models import Cvc5Sizes, GlpkSizes, Unanswered, Z3Sizes, claims_shown, search_range  # noqa: E402
from sheets import (COVER, DISJOINT, EDITIONS, NAMES, NO_END, SAME, Library, Sheet, edition_of, largest,  # noqa: E402
                    largest_places, record, way_up)

folder, ops, stack, driver, check, plot, flags = sys.argv[1:8]
LARGE = [e.groups for e in EDITIONS]  # 128 groups are of edition 1, 256 of edition 2
SHAPES, SIZES = ['chain', 'star', 'bushy'], [16, 32, 64] + LARGE
REGISTERS = ['star', 'bushy', 'caterpillar', 'chain']
ROWS_EACH = {'': 1, '-two-rows': 2}  # of a member, by what follows the name of a register
PLACES = ['first', 'last']           # of the bytes in which the labels of a largest sheet differ
BY_ROWS, BY_GROUPS = [(128, 256), (512, 256), (2048, 256)], [(2048, 32), (2048, 128), (2048, 256)]  # rows, groups
PARTS = ['sheet', 'labels', 'rows', 'columns', 'scan']
RUNS = 3
STACK_LIMIT = 256 * 1024
OPERATIONS = {'ranges': 'all ranges', 'bare': 'all ranges, no names', 'count': 'one claim of kind 4',
              'inside': 'one claim of kind 5', 'apart': 'one claim of kind 6', 'place': 'one claim of kind 7',
              'claims': '64 claims of kinds 4 to 6', 'places': '64 claims of kind 7', 'register': 'register of 2,048 rows'}


def names(edition, groups, place):
    """As many names as there may be, spread over the groups; their labels have most bytes, and differ in the first or last."""
    fill = (b'LONGEST-LABEL' * 3)[:edition.label - 3]
    out = b''
    for i in range(1, NAMES + 1):
        label = b'%03d' % i + fill if place == 'first' else fill + b'%03d' % i
        out += struct.pack('<HHH', 4 + len(label), 3, i * groups // NAMES) + label
    return out


def longest(sheet, place):
    """A largest sheet by bytes: all groups of its edition, 128 labels of most bytes, 64 claims of 8 and 8 names."""
    edition = sheet.edition
    out = record(1, [edition.number, edition.groups, NAMES, 64])
    for parent, lo, hi, mode in sheet.groups:
        out += record(2, [parent, lo, NO_END if hi is None else hi, mode])
    out += names(edition, edition.groups, place)
    for c in range(64):
        out += record(5 + c % 3, [8, 8] + [1 + (c + 7 * k) % NAMES for k in range(16)])
    assert len(out) == {1: 6924, 2: 10508}[edition.number]
    return out


def ears(many):
    """So many ears, number and side (1 left, 2 right): of eight recipients six have both, one the left, one the right."""
    of = ((number, side) for number in itertools.count(1) for side in {3: [1], 7: [2]}.get(number % 8, [1, 2]))
    return list(itertools.islice(of, many))


def register(shape, rows_each, n, edition, many=2048):
    """A register of so many rows and sheets of n groups with 128 labels: 'fits'; 'broken' at group n alone; 'first', at group 1
    by its count, and group 1 has no mode there; 'bare', which it fits, without labels. No row and no group is empty.

    A member goes from a group up to the root, and down again where that has to be: under 'same' into all sons, under 'cover'
    into one, and without 'disjoint' often into a second. Where there are fewer members than groups it goes from several,
    and what these part from is not 'disjoint'. Modes and bounds are on most groups. Members are ears, and most recipients
    have two. A member has one row, or two: then the root is in both, and any other of its groups in the first, in the
    second or in both. 'mixed' is a chain whose members, each by chance, begin at the root or anywhere."""
    rng, parts = random.Random(shape), random.Random('parts')
    groups, members = range(1, n + 1), many // rows_each
    parent = {g: {'star': 1, 'bushy': (g + 2) // 4, 'caterpillar': g - 1 if g % 2 == 0 else g - 2,
                  'chain': g - 1, 'mixed': g - 1}[shape] for g in groups}
    parent[1] = 0
    sons = {g: [s for s in groups if parent[s] == g] for g in groups}
    up = {g: set(way_up([parent[g] for g in groups], g)) for g in groups}
    mode = {}
    for g in groups:
        if not sons[g]:
            mode[g] = 0 if g % 8 == 0 else DISJOINT
        elif len(sons[g]) == 1:
            mode[g] = [1, 3, 1, 7, 2, 1, 4, 3][g % 8]
        else:
            mode[g] = {3: DISJOINT, 5: COVER, 7: COVER + SAME, 9: DISJOINT, 13: 0, 15: COVER}.get(g % 16, 3)
    for k in range(1, n + 1 - members):
        held = set().union(*(up[g] for g in range(k, n + 1, members)))
        for g in held:
            if len(held & set(sons[g])) > 1:
                mode[g] &= ~DISJOINT
    assert sum(m != 0 for m in mode.values()) > n / 2
    rows, size = b'', dict.fromkeys(groups, 0)
    for k, (number, side) in enumerate(ears(members), 1):
        low = range(k, n + 1, members) or [1 if shape == 'mixed' and rng.random() < 0.5 else rng.randint(1, n)]
        held = set().union(*(up[g] for g in low))
        for g in groups:
            if g in held and sons[g]:
                if mode[g] & SAME:
                    held.update(sons[g])
                elif mode[g] & COVER and not held & set(sons[g]):
                    held.add(rng.choice(sons[g]))
                if not mode[g] & DISJOINT and rng.random() < 0.5:
                    held.add(rng.choice(sons[g]))
        for g in held:
            size[g] += 1
        on = {g: 3 if g == 1 or rows_each == 1 else parts.randint(1, 3) for g in sorted(held)}
        for row in range(rows_each):
            bits = sum(1 << g - 1 for g in held if on[g] >> row & 1)
            assert bits > 0
            rows += struct.pack('<HHIH', 8 + edition.membership, edition.row_kind, number, side)
            rows += bits.to_bytes(edition.membership, 'little')
    assert len(rows) == many * (10 + edition.membership)
    assert min(size.values()) > 0

    def sheet(raised=0, named=NAMES):
        out = record(1, [edition.number, n, named, 0])
        for g in groups:
            lo = size[g] if g == n else 0 if g % 16 == 9 else max(0, size[g] - g % 4)
            lo, of = (size[g] + 1, mode[g] if g > 1 else 0) if g == raised else (lo, mode[g])
            out += record(2, [parent[g], lo, NO_END if g % 8 == 3 else size[g] + g % 3, of])
        return out + (names(edition, n, 'last') if named else b'')

    return rows, {'fits': sheet(), 'broken': sheet(raised=n), 'first': sheet(raised=1), 'bare': sheet(named=0)}


def in_turns(what, solver):
    """Our operation and a solver, one after the other: the middle times, of the ratios the middle one, and the answer."""
    ours, times = [], []
    while len(times) < (RUNS if sum(times) > 1 else 3 * RUNS):
        ours += [own for (own, *_), _ in measure(what).values()]
        start = time.perf_counter()
        answer = solver()
        times.append(time.perf_counter() - start)
    ratio = statistics.median(b / a for a, b in zip(ours, times))
    return statistics.median(ours), statistics.median(times), ratio, answer


def measure(*what):
    """The times in seconds and their middle ratio, for all that `ops` measures or for what begins so."""
    out = subprocess.run([ops, folder, *what], check=True, capture_output=True, text=True).stdout
    rows = [line.split('\t') for line in out.splitlines()]
    return {row[0]: ([float(t) * 1e-9 for t in row[1:-1]], float(row[-1])) for row in rows}


def show(seconds):
    if seconds >= 0.1:
        return format(round(seconds * 1e3), ',') + ' ms'
    return '%.3g ms' % (seconds * 1e3) if seconds >= 1e-4 else '%.3g us' % (seconds * 1e6)


def glpk_ranges(s):
    m = GlpkSizes(s)
    return [m.range(g) for g in s.numbers]


def z3_ranges(s):
    m = Z3Sizes(s).plain()
    return [search_range(m, g) for g in s.numbers]


def cvc5_ranges(s):
    m = Cvc5Sizes(s)
    out = [search_range(m, g) for g in s.numbers]
    m.close()
    return out


def glpk_claims(s):
    return claims_shown(GlpkSizes(s), GlpkSizes(s, marked=True), s)


def z3_claims(s):
    return claims_shown(Z3Sizes(s).plain(), Z3Sizes(s).marked(), s)


def cvc5_claims(s):
    plain, marked = Cvc5Sizes(s), Cvc5Sizes(s, marked=True)
    out = claims_shown(plain, marked, s)
    plain.close()
    marked.close()
    return out


def write(name, content):
    with open('%s/%s' % (folder, name), 'wb') as f:
        f.write(content)


def rust_lines():
    """What is measured beside Rust: the text, what `ops` calls it (for a number of groups) and the goal."""
    for place in PLACES:
        yield 'reading a largest sheet, labels differ in the %s bytes' % place, 'reading %s %%d' % place, 'at most 1.2'
    for op, goal in [('ranges', 'at most 1.5'), ('claims', 'at most 2'), ('places', 'at most 2')]:
        for shape in SHAPES:
            yield '%s, %s' % (OPERATIONS[op], shape), '%s %s %%d' % (op, shape), goal


def growth_lines():
    """What is measured by number of groups: the operation, the tree, what `ops` calls it, the sizes and the goal."""
    for op in OPERATIONS:
        for shape in REGISTERS if op == 'register' else SHAPES:
            what = 'register %s %%d fits' % shape if op == 'register' else '%s %s %%d' % (op, shape)
            yield (OPERATIONS[op], shape, what, LARGE if op == 'register' else SIZES,
                   'none' if op in ('claims', 'places', 'register') else 'at most 2.5')


def draw():
    """Writes the sheets and registers; the sheets that solvers get, and each register with its sheets."""
    rng = random.Random(11)
    # In this order: what is drawn later leaves the sheets before it as they were.
    order = [(largest, shape, n) for shape in SHAPES for n in SIZES if n <= 128]
    order += [(largest_places, shape, 128) for shape in SHAPES]
    order += [(made, shape, n) for made in (largest, largest_places) for n in SIZES for shape in SHAPES]
    sheets, registers = {}, []
    for made, shape, n in order:
        if (made, shape, n) not in sheets:
            s = sheets[made, shape, n] = made(n, shape, rng)
            write('%s-%s-%d.sheet' % (shape, 'places' if made == largest_places else 'claims', n), s.bytes())
            # The first claim of each kind, alone; and the groups alone.
            for c in {c[0]: c for c in reversed(s.claims)}.values():
                write('%s-%s-%d.sheet' % (shape, c[0], n), Sheet(s.groups, [c], s.what, s.edition).bytes())
            write('%s-bare-%d.sheet' % (shape, n), Sheet(s.groups, [], s.what, s.edition).bytes())
    for n in LARGE:
        for place in PLACES:
            write('largest-%s-%d.sheet' % (place, n), longest(sheets[largest, 'bushy', n], place))
    for shape in REGISTERS:
        for after, n in itertools.product(ROWS_EACH, LARGE):
            rows, under = register(shape, ROWS_EACH[after], n, edition_of(n))
            name = 'register-%s-%d' % (shape + after, n)
            write(name + '.rows', rows)
            for which, content in under.items():
                write('%s-%s.sheet' % (name, which), content)
                registers.append((name + '.rows', '%s-%s.sheet' % (name, which)))
            # Number 0 in the last row.
            last = len(rows) - 10 - edition_of(n).membership
            write(name + '-refused.rows', rows[:last + 4] + bytes(4) + rows[last + 8:])
            registers.append((name + '-refused.rows', name + '-fits.sheet'))
        for many, n in dict.fromkeys(BY_ROWS + BY_GROUPS):
            name = 'size-%s-%d-%d' % (shape, many, n)
            rows, under = register(shape, 1, n, EDITIONS[1], many)
            write(name + '.rows', rows)
            write(name + '.sheet', under['fits'])
            registers.append((name + '.rows', name + '.sheet'))
    rows, under = register('mixed', 1, 256, EDITIONS[1])
    write('mixed.rows', rows)
    write('mixed.sheet', under['fits'])
    return sheets, registers + [('mixed.rows', 'mixed.sheet')]


def agreement(library, registers):
    """Both forms of the Rust program, as a program, say of each register what ours does."""
    for rows, sheet in registers:
        hexed = []
        for name in (sheet, rows):
            with open('%s/%s' % (folder, name), 'rb') as f:
                hexed.append(f.read().hex())
        refusal, second, reply = library.ask('g 8 %s %s' % tuple(hexed))
        ours = [refusal, second] + (list(struct.unpack('<HHHH', reply)[2:]) if refusal == 0 else [])
        for form in [], ['--walk']:
            out = subprocess.run([check, *form, '%s/%s' % (folder, sheet), '%s/%s' % (folder, rows)], check=True,
                                 capture_output=True, text=True).stdout
            if [int(x) for x in out.split()] != ours:
                sys.exit('%s under %s: %s where ours gives %s' % (rows, sheet, out.strip(), ours))


def head(parts):
    print('# Benchmarks\n')
    print('Printed by `%s`. Middle of 101 runs for our operations and for Rust, on the same bytes and taken in turns, a run '
          'being as many calls as fill a tenth of a millisecond, one at least; middle '
          'of %d to %d for solvers, each after such 101 runs of ours. A ratio of times taken in turns stands where the machine '
          'does other work too; single times want an idle one. Sheets and registers of up to 128 groups are of edition 1, '
          'those of 256 of edition 2, where nothing else is said.\n' % (' '.join(['bench/run'] + parts), RUNS, 3 * RUNS))
    cpu = next((l.split(':')[1].strip() for l in open('/proc/cpuinfo') if 'model name' in l), 'unknown')
    print('- processor: %s, %d cores' % (cpu, os.cpu_count()))
    print('- ' + flags.replace('; ', '\n- ') + '\n')


def against_rust(measured):
    print('## Against ordinary Rust of the same algorithm\n')
    print('| operation | %s | goal |\n|---|%s---|' % (
        ' | '.join('ours, %d groups | Rust | ratio' % n for n in LARGE), '---|---|---|' * len(LARGE)))
    for text, what, goal in rust_lines():
        cells = ['%s | %s | %.2f' % (show(a), show(b), a / b) for (a, b), _ in (measured[what % n] for n in LARGE)]
        print('| %s | %s | %s |' % (text, ' | '.join(cells), goal))
    print('\nReading is a call with an empty register, in Rust by walk; the largest sheets have 6,924 bytes, with labels of '
          '16, and 10,508 bytes, with labels of 32.\n')


def conversions(measured):
    print('## Conversion between the editions\n')
    print('A largest sheet (128 groups and labels of 16 bytes, of 6,924 bytes; copied: 256 groups and labels of 32 bytes, of 10,508) '
          'and 2,048 rows under a bushy tree of as many groups, a row for each member. Rust (`reference/conversion.rs`) reads sheet '
          'and rows as its register check does, then copies slices; our own goal is 1.2.\n')
    print('| conversion | sheet, ours | Rust | ratio | 2,048 rows, ours | Rust | ratio | goal |\n|' + '---|' * 8)
    for what, text in [('2 to 1', 'from edition 2 to 1'), ('1 to 2', 'from edition 1 to 2'), ('copied', 'edition 2, copied')]:
        pairs = [measured['convert %s %s' % (of, what)][0] for of in ('sheet', 'register')]
        cells = ['%s | %s | %.2f' % (show(ours), show(rust), ours / rust) for ours, rust in pairs]
        print('| %s | %s | at most 1.5 |' % (text, ' | '.join(cells)))
    print()


def register_table(measured, after, n, goal):
    print('| tree | register | ours | Rust by columns | ratio | Rust by walk | ratio | over the quicker |%s'
          % (' goal |' if goal else ''))
    print('|' + '---|' * (9 if goal else 8))
    for shape in REGISTERS:
        for which, text in [('fits', 'fits'), ('broken', 'first broken at group %d' % n)]:
            (ours, columns, walk), _ = measured['register %s %d %s' % (shape + after, n, which)]
            print('| %s | %s | %s | %s | %.2f | %s | %.2f | %.2f |%s' % (
                shape, text, show(ours), show(columns), ours / columns, show(walk), ours / walk, ours / min(columns, walk),
                ' %s |' % goal if goal else ''))
    print()


def against_program(measured, many):
    print('## The register check against an ordinary Rust program\n')
    print('2,048 rows and 256 groups, a row for each member. The program (`reference/register.rs`, `reference/check.rs`) does the '
          'whole check through the same bytes, sheet, refusals and reply among it, in two forms: `columns` turns the rows, 64 '
          'members by 64 groups at a time, into a column of bits for each group and takes the rules by columns; `walk` goes '
          'through the groups of each member, which is quicker where there are few. Ours is held to the quicker of both, '
          'register by register; our own goal is 1.1. All three agreed in return and reply on every register measured here '
          '(`ops`: all bytes of the buffer; `check`: %d registers with their sheets).\n' % many)
    register_table(measured, '', 256, 'at most 1.5')
    print('The trees: %s. Modes and bounds are on most groups, no row and no group is empty, 128 names have labels of 32 bytes '
          'that differ in their last three. A member is an ear: of eight recipients six have both ears, two members with one '
          'number, and two have one.\n' % ', '.join(REGISTERS))
    (ours, columns, walk), _ = measured['register mixed']
    print('A chain of 256 groups whose members, each by chance, are in the first two groups or go down to any depth (a tile of '
          '64 members is put bit by bit where 16 of them have few groups together, else transposed): ours %s, Rust by columns '
          '%s, by walk %s, %.2f over the quicker.\n' % (show(ours), show(columns), show(walk), ours / min(columns, walk)))
    print('1,024 members, each on two rows, the root in both, any other group in one or both:\n')
    register_table(measured, '-two-rows', 256, None)
    print('128 groups (edition 1, labels of 16 bytes), a row for each member:\n')
    register_table(measured, '', 128, None)


def time_parts(measured):
    print('## Where the time goes\n')
    print('Differences of whole calls, taken in turns, in microseconds, 256 groups, each call going further than the one '
          'before: one row, refused by 12, under a sheet without names (sheet); the same with 128 names (labels); all rows, '
          'the last one refused (rows); a sheet that is broken at group 1 by its count (columns); one that fits (scan). Ours '
          'reads all rows before it makes columns; the program reads a row and gathers its groups at once, so that its columns '
          'are in `rows`, the clearing of their table in `sheet`, and a column is counted in the scan.\n')
    print('| tree | program | %s | whole |\n|---|---|%s---|' % (' | '.join(PARTS), '---|' * len(PARTS)))
    for shape in REGISTERS:
        for program, text in [('ours', 'ours'), ('columns', 'Rust by columns'), ('walk', 'Rust by walk')]:
            until = [seconds * 1e6 for seconds in measured['part %s %s' % (shape, program)][0]]
            cells = ['%.1f' % (t - before) for t, before in zip(until, [0] + until)]
            print('| %s | %s | %s | %.1f |' % (shape, text, ' | '.join(cells), until[-1]))
    print()


def register_growth(measured):
    print('## What a register costs as it grows\n')
    print('Registers that fit, a row for each member, all of edition 2, so that a row has 42 bytes throughout; modes, bounds '
          'and labels as above, no row and no group empty. With 128 rows under 256 groups a member goes from two groups up to '
          'the root, and where its ways part a group is not \'disjoint\'. Rust by columns; the last ratio is to the quicker '
          'of both forms.\n')
    for sizes, text in [(BY_ROWS, '%d rows'), (BY_GROUPS, '%d groups')]:
        by_rows = sizes == BY_ROWS
        print('256 groups:\n' if by_rows else '2,048 rows:\n')
        print('| tree | %s |\n|---|%s' % (
            ' | '.join('ours, %s | Rust | ratio | to the quicker' % text % size[not by_rows] for size in sizes),
            '---|' * 4 * len(sizes)))
        for shape in REGISTERS:
            cells = []
            for size in sizes:
                (ours, columns, walk), _ = measured['size %s %d %d' % (shape, *size)]
                cells.append('%s | %s | %.2f | %.2f' % (show(ours), show(columns), ours / columns, ours / min(columns, walk)))
            print('| %s | %s |' % (shape, ' | '.join(cells)))
        print()
    print('![Time of a register check against rows and against groups](%s)\n' % os.path.basename(plot))
    with open(plot, 'w') as f:
        f.write(drawing(measured))


def drawing(measured):
    """The plot: time against rows and against groups, a line for each tree, ours whole and Rust's dashed."""
    colours = dict(zip(REGISTERS, ['#1667a8', '#c25400', '#2b7a3b', '#7a3e9d']))
    of = lambda shape, size, i: measured['size %s %d %d' % (shape, *size)][0][i] * 1e6
    most = max(of(shape, size, i) for shape in REGISTERS for size in BY_ROWS + BY_GROUPS for i in (0, 1))
    step = next(t for t in (5, 10, 20, 25, 50, 100, 200, 500, 1000) if most / t <= 8)
    top = step * -(-most // step)
    width, height, left, right = 340, 260, 60, 30
    out = ['<svg xmlns="http://www.w3.org/2000/svg" viewBox="0 0 %d 380" font-family="sans-serif" font-size="12">'
           % (2 * (left + width + right)), '<rect width="100%" height="100%" fill="white"/>']

    def put(x, y, text, anchor='middle', more=''):
        out.append('<text x="%.1f" y="%.1f" text-anchor="%s" fill="#222"%s>%s</text>' % (x, y, anchor, more, text))

    def line(points, colour, more=''):
        out.append('<polyline points="%s" fill="none" stroke="%s"%s/>' % (
            ' '.join('%.1f,%.1f' % point for point in points), colour, more))

    for panel, (sizes, text, title) in enumerate([(BY_ROWS, 'rows', '256 groups'), (BY_GROUPS, 'groups', '2,048 rows')]):
        x0, y0 = left + panel * (left + width + right), 40 + height
        across = lambda size: x0 + width * size[panel] / sizes[-1][panel]
        down = lambda us: y0 - height * us / top
        put(x0 + width / 2, 25, title, more=' font-weight="bold"')
        for k in range(int(top // step) + 1):
            line([(x0, down(k * step)), (x0 + width, down(k * step))], '#ddd' if k else '#222')
            put(x0 - 8, down(k * step) + 4, k * step, 'end')
        line([(x0, y0), (x0, y0 - height)], '#222')
        for size in sizes:
            line([(across(size), y0), (across(size), y0 + 5)], '#222')
            put(across(size), y0 + 18, format(size[panel], ','))
        put(x0 + width / 2, y0 + 36, text)
        put(x0 - 40, y0 - height / 2, 'microseconds', more=' transform="rotate(-90 %d %d)"' % (x0 - 40, y0 - height / 2))
        for shape, i in itertools.product(REGISTERS, (0, 1)):
            points = [(across(size), down(of(shape, size, i))) for size in sizes]
            line(points, colours[shape], ' stroke-width="2"' + (' stroke-dasharray="6 4"' if i else ''))
            out += ['<circle cx="%.1f" cy="%.1f" r="3" fill="%s"/>' % (*point, colours[shape]) for point in points]
    entries = [(shape, colours[shape], '') for shape in REGISTERS]
    entries += [('ours', '#222', ''), ('Rust by columns', '#222', ' stroke-dasharray="6 4"')]
    for k, (text, colour, more) in enumerate(entries):
        x = left + 125 * k
        line([(x, 360), (x + 28, 360)], colour, ' stroke-width="2"' + more)
        put(x + 34, 364, text, 'start')
    return '\n'.join(out + ['</svg>']) + '\n'


def growth(measured):
    print('## Growth\n')
    print('`256 over 128` is the middle ratio of 101 pairs of times, taken in turns; the times before it stand each for '
          'itself. The sheets have 64 claims and up to 128 names, which grow no more from 128 groups on; so ranges are taken '
          'of the groups alone too (`no names`), and one claim is alone on its sheet with the names that it needs. One claim '
          'of kinds 4 to 6 is a denial that speaks of the last group (kinds 5 and 6: and of the first), one of kind 7 a yes; '
          'each shows its sets. The registers fit, with a row for each member.\n')
    print('| operation | tree | %s | 256 over 128 | goal |\n|---|---|%s---|---|' % (
        ' | '.join('%d groups' % n for n in SIZES), '---|' * len(SIZES)))
    for text, shape, what, sizes, goal in growth_lines():
        times = ' | '.join(show(measured[what % n][0][0]) if n in sizes else '-' for n in SIZES)
        _, ratio = measured['growth %s %s' % (what.split()[0], shape)]
        print('| %s | %s | %s | %.2f | %s |' % (text, shape, times, ratio, goal))
    print()


def against_solvers(library, sheets):
    print('## Against solvers, 128 and 256 groups\n')
    print('Model building included, start-up of Python not. GLPK and z3 through their Python modules, cvc5 as one '
          'process per sheet; all three over sizes. All answers agreed with ours.\n')
    print('| task | tree | groups | ours | GLPK | z3 | cvc5 | fastest over ours | goal |\n|' + '---|' * 9)
    ranges_by, claims_by = [glpk_ranges, z3_ranges, cvc5_ranges], [glpk_claims, z3_claims, cvc5_claims]
    for op, solvers, goal in [('ranges', ranges_by, 300), ('claims', claims_by, 10), ('places', claims_by, 30)]:
        for shape, n in [(shape, n) for shape in SHAPES for n in LARGE]:
            s = sheets[largest_places if op == 'places' else largest, shape, n]
            label = OPERATIONS[op]
            if op == 'ranges':
                want = library.ranges(s)
            else:
                said = [library.claim(s, i + 1) for i in range(len(s.claims))]
                want = [runs is not None for _, runs in said]
                label += ', %d hold' % sum(holds for holds, _ in said)
                if len(set(want)) < 2:
                    sys.exit('only one answer to %s\n%s' % (label, s))
            ours, times, ratios = [], [], []
            for solver in solvers:
                try:
                    own, seconds, ratio, got = in_turns('%s %s %d' % (op, shape, n), lambda: solver(s))
                except Unanswered:
                    times.append(None)
                    continue
                if got != want:
                    sys.exit('%s differs on %s\n%s' % (solver.__name__, label, s))
                ours.append(own)
                times.append(seconds)
                ratios.append(ratio)
            print('| %s | %s | %d | %s | %s | %.0f | %s |' % (
                label, shape, n, show(statistics.median(ours)),
                ' | '.join('no answer' if t is None else show(t) for t in times), min(ratios),
                'at least %d' % goal if n == LARGE[0] else 'none'))
    print()


def stack_depths():
    print('## Stack of the deepest call\n')
    print('On a painted stack, below the caller; the claims of kinds 4 to 6 are denials, the one of kind 7 is a yes, the '
          'register has 2,048 rows; sheets and registers of 256 groups are in edition 2 already.\n')
    print('| operation | groups | %s |\n|---|---|%s' % (' | '.join(REGISTERS), '---|' * len(REGISTERS)))
    depth = {}
    for shape, n in [(shape, n) for n in LARGE for shape in REGISTERS]:
        paths = ['%s/%s-%s-%d.sheet' % (folder, shape, which, n) if shape in SHAPES else '-' for which in ('claims', 'places')]
        paths += ['%s/register-%s-%d%s' % (folder, shape, n, which) for which in ('-fits.sheet', '.rows')]
        out = subprocess.run([stack] + paths, check=True, capture_output=True, text=True)
        for line in out.stdout.splitlines():
            what, used = line.split('\t')
            depth[what, n, shape] = int(used)
    for what, n in dict.fromkeys((what, n) for n in LARGE for what, _, _ in depth):
        cells = [depth.get((what, n, shape)) for shape in REGISTERS]
        print('| %s | %d | %s |' % (what, n, ' | '.join('-' if c is None else format(c, ',') + ' bytes' for c in cells)))
    deepest, calls = max(depth.values()), {}
    for (what, n, shape), used in depth.items():
        if used == deepest:
            calls.setdefault('%s of %d groups' % (shape, n), []).append(what)
    print('\nThe deepest call takes %s bytes: %s. The limit is %s bytes for every operation.' % (
        format(deepest, ','), '; '.join('%s: %s' % (where, ', '.join(whats)) for where, whats in calls.items()),
        format(STACK_LIMIT, ',')))
    if deepest > STACK_LIMIT:
        sys.exit('a call takes more stack than the limit')


def main():
    parts = sys.argv[8:]
    sheets, registers = draw()
    library = Library(driver)
    agreement(library, registers)
    measured = measure(*(['register ', 'part ', 'size '] if parts else []))
    head(parts)
    if not parts:
        against_rust(measured)
        conversions(measured)
    against_program(measured, len(registers))
    time_parts(measured)
    register_growth(measured)
    if not parts:
        growth(measured)
        against_solvers(library, sheets)
        stack_depths()


main()
