"""The program sheet_report, byte for byte; what it must print is written by hand from documents 01 and 02.

    cases.py PROGRAM"""
import os
import struct
import subprocess
import sys
import tempfile
import time

NO_END = 65535


def record(kind, *fields, label=b''):
    body = struct.pack('<%dH' % len(fields), *fields) + label
    return struct.pack('<HH', len(body) + 2, kind) + body


def head(g, s, q, edition=1):
    return record(1, edition, g, s, q)


def in_edition(n, sheet):
    """The same sheet with another edition in its head."""
    return sheet[:4] + struct.pack('<H', n) + sheet[6:]


def group(parent, lo, hi, mode):
    return record(2, parent, lo, hi, mode)


def name(of, label):
    return record(3, of, label=label.encode())


def count(of, lo, hi):
    return record(4, of, lo, hi)


def lists(kind):
    return lambda left, right: record(kind, len(left), len(right), *left, *right)


inside, apart, place = lists(5), lists(6), lists(7)

printed = (
    head(4, 4, 3)
    + group(0, 10, 12, 3) + group(1, 0, 5, 0) + group(1, 2, 6, 0) + group(2, 3, NO_END, 0)
    + name(1, 'ALL') + name(2, 'LEFT') + name(3, 'RIGHT') + name(4, 'NEW')
    + count(2, 4, 5) + apart([4], [3]) + inside([2], [4]))
printed_lines = b'''1 10 11 1 10
2 4 5 1 5
3 5 6 6 5
4 3 5 1 3
claim 1 holds
claim 2 holds
claim 3 denied
'''


def longest(edition, groups, width):
    """One of the longest sheets of an edition, and its lines. Each disjoint son has its one member of the root's; names
    are the root's and those of the last 127 sons, and differ in their last bytes alone."""
    sheet = head(groups, 128, 64, edition) + group(0, groups - 1, groups - 1, 3) + group(1, 1, 1, 0) * (groups - 1)
    for i in range(1, 129):
        sheet += name(groups - 128 + i if i > 1 else 1, ('SIXTEEN-BYTES%03d' % i).rjust(width, '-'))
    eight, other = list(range(2, 10)), list(range(121, 129))
    for c in range(8):
        sheet += apart(eight, other)             # holds: the sons are disjoint
        sheet += inside(eight, eight[::-1])      # holds
        sheet += inside(eight, other)            # denied: none of them is empty
        sheet += apart(eight, other[:7] + [1])   # denied: the root has them all
        sheet += place([2] * 8, other)           # holds
        sheet += place([1] * 8, eight)           # holds: the root has others
        sheet += place(eight, other)             # denied: the sons are disjoint
        sheet += place([2] * 8, other[:7] + [2]) # denied: in both lists
    lines = b'1 %d %d 1 %d\n' % (groups - 1, groups - 1, groups - 1)
    lines += b''.join(b'%d 1 1 %d 1\n' % (g, g - 1) for g in range(2, groups + 1))
    for c in range(64):
        lines += b'claim %d %s\n' % (c + 1, [b'holds', b'holds', b'denied', b'denied'][c % 4])
    return sheet, lines


largest_1, largest_1_lines = longest(1, 128, 16)
largest_2, largest_2_lines = longest(2, 256, 32)
assert (len(largest_1), len(largest_2)) == (6924, 10508)

no_end = head(1, 1, 3) + group(0, 0, NO_END, 0) + name(1, 'A')
no_end += count(1, 0, 65534) + count(1, 0, NO_END) + count(1, 1, NO_END)

kinds = (
    head(4, 5, 9)
    + group(0, 4, 4, 2) + group(1, 0, 3, 0) + group(1, 0, 2, 0) + group(2, 0, NO_END, 2)
    + name(1, 'ROOT') + name(2, 'A') + name(3, 'B') + name(0, 'NOBODY') + name(4, 'EMPTY-TOO')
    + count(1, 4, 4)            # holds
    + count(2, 2, 3)            # holds: B has at most 2 of the 4
    + count(2, 3, 3)            # denied
    + inside([1], [2, 3])       # holds: cover
    + inside([2], [3])          # denied
    + inside([4, 5], [4])       # holds: a cover group without sons is empty
    + apart([2], [3])           # denied: 3 and 2 of 4 overlap
    + apart([4], [4])           # holds
    + count(4, 1, 5))           # denied
kinds_lines = b'''1 4 4 1 4
2 2 3 1 3
3 1 2 3 2
4 0 0 1 0
claim 1 holds
claim 2 holds
claim 3 denied
claim 4 holds
claim 5 denied
claim 6 holds
claim 7 denied
claim 8 holds
claim 9 denied
'''

# Of two members three sons of one each can't share one, two can.
places = (
    head(4, 5, 7)
    + group(0, 2, 2, 2) + group(1, 0, 1, 0) * 3
    + name(1, 'ROOT') + name(2, 'A') + name(3, 'B') + name(4, 'C') + name(0, 'NOBODY')
    + place([2, 3], [5])        # holds: nobody on the right is passed over
    + place([2, 3, 4], [5])     # denied
    + place([2, 5], [4])        # denied: nobody is in NOBODY
    + place([2], [4, 5, 3])     # holds
    + apart([2], [3])           # denied
    + place([1], [2, 3, 4])     # denied: cover
    + place([1, 3], [2]))       # holds
places_lines = b'''1 2 2 1 2
2 0 1 1 1
3 0 1 2 1
4 0 1 2 1
claim 1 holds
claim 2 denied
claim 3 denied
claim 4 holds
claim 5 denied
claim 6 denied
claim 7 holds
'''


def wide(edition, groups, end):
    """Sons of at most 65,534 under 'cover' give the greatest end that an edition has."""
    lines = b'1 0 %d 1 0\n' % end + b''.join(b'%d 0 65534 1 0\n' % g for g in range(2, groups + 1))
    return head(groups, 0, 0, edition) + group(0, 0, NO_END, 2) + group(1, 0, 65534, 0) * (groups - 1), lines


def chain(edition, groups):
    """One below another, the last with 7: so have all. Names of the first, of the last and of the one before."""
    sheet = head(groups, 3, 3, edition) + group(0, 0, 7, 0)
    sheet += b''.join(group(g - 1, 7 if g == groups else 0, NO_END, 0) for g in range(2, groups + 1))
    sheet += name(1, 'FIRST') + name(groups, 'LAST') + name(groups - 1, 'BEFORE')
    sheet += inside([1], [2])   # holds
    sheet += apart([2], [3])    # denied
    sheet += place([1, 3], [2]) # denied
    lines = b''.join(b'%d 7 7 1 7\n' % g for g in range(1, groups + 1))
    return sheet, lines + b'claim 1 holds\nclaim 2 denied\nclaim 3 denied\n'


def two_labels(edition, label, other):
    return head(1, 2, 0, edition) + group(0, 0, 3, 0) + name(1, label) + name(0, other)


impossible = head(3, 0, 0) + group(0, 0, 3, 1) + group(1, 2, NO_END, 0) * 2
one = head(1, 0, 0) + group(0, 0, 3, 0)
# A first record that takes n bytes in all.
long_head = lambda n: struct.pack('<HH', n - 2, 1) + b'\1\0' * ((n - 4) // 2) + b'\0' * (n % 2)

# Heads of edition 1; edition 2 has the same answers.
EITHER = [
    ('printed case', printed, printed_lines),
    ('one group', one, b'1 0 3 1 0\n'),
    ('no upper end', no_end, b'1 0 - 1 0\nclaim 1 denied\nclaim 2 holds\nclaim 3 denied\n'),
    ('counts, inside and apart', kinds, kinds_lines),
    ('places', places, places_lines),
    ('one of the largest of edition 1', largest_1, largest_1_lines),
    ('impossible', impossible, b'refused 8 0\n'),
    ('impossible, with claims',
     head(1, 1, 1) + group(0, 1, 0, 0) + name(1, 'A') + count(1, 0, 5), b'refused 8 0\n'),
    ('1: last record cut', printed[:-1], b'refused 1 12\n'),
    ('1: last record missing', printed[:-12], b'refused 1 12\n'),
    ('2: a claim of kind 8',
     head(1, 1, 1) + group(0, 0, 3, 0) + name(1, 'A') + lists(8)([1], [1]), b'refused 2 4\n'),
    ('3: head of length 12', record(1, 1, 1, 0, 0, 0) + group(0, 0, 3, 0), b'refused 3 1\n'),
    ('4: 129 names', head(1, 129, 0) + group(0, 0, 3, 0), b'refused 4 1\n'),
    ('4: 65 claims', head(1, 1, 65) + group(0, 0, 3, 0), b'refused 4 1\n'),
    ('5: own parent', head(2, 0, 0) + group(0, 0, 3, 0) + group(2, 0, 3, 0), b'refused 5 3\n'),
    ('6: label again', two_labels(1, 'A', 'A'), b'refused 6 4\n'),
    ('7: a byte behind', printed + b'\n', b'refused 7 13\n'),
    ('a readable sheet and 10,000 bytes', printed + b'A' * 10000, b'refused 7 13\n'),
    ('a readable sheet and 100,000 bytes', printed + b'A' * 100000, b'refused 7 13\n'),
    ('the largest of edition 1 and 10,000 bytes', largest_1 + b'\0' * 10000, b'refused 7 322\n'),
    ('16,384 bytes: a sheet and what follows', printed.ljust(16384, b'\0'), b'refused 7 13\n'),
    ('16,385 bytes: a sheet and what follows', printed.ljust(16385, b'\0'), b'refused 7 13\n'),
]

CASES = EITHER + [(what + ', as edition 2', in_edition(2, sheet), want) for what, sheet, want in EITHER] + [
    ('one of the largest', largest_2, largest_2_lines),
    ('127 sons of 65,534 under cover', *wide(1, 128, 8322818)),
    ('255 sons of 65,534 under cover', *wide(2, 256, 16711170)),
    ('128 below one another', *chain(1, 128)),
    ('129 below one another', *chain(2, 129)),
    ('256 below one another', *chain(2, 256)),
    ('impossible, 256 groups',
     head(256, 0, 0, 2) + group(0, 0, 254, 1) + group(1, 1, NO_END, 0) * 255, b'refused 8 0\n'),
    ('no input', b'', b'refused 1 1\n'),
    ('one byte', b'\n', b'refused 1 1\n'),
    ('1: last record of the largest cut', largest_2[:-1], b'refused 1 449\n'),
    ('1: 8,192 bytes of the largest', largest_2[:8192], b'refused 1 392\n'),
    ('2: a group first', printed[12:], b'refused 2 1\n'),
    ('3: label of 17 bytes in edition 1', two_labels(1, 'A', 'A' * 17), b'refused 3 4\n'),
    ('label of 17 bytes in edition 2', two_labels(2, 'A', 'A' * 17), b'1 0 3 1 0\n'),
    ('3: label of 33 bytes', two_labels(2, 'A', 'A' * 33), b'refused 3 4\n'),
    ('4: 129 groups in edition 1', in_edition(1, chain(2, 129)[0]), b'refused 4 1\n'),
    ('4: 256 groups in edition 1', in_edition(1, largest_2), b'refused 4 1\n'),
    ('4: 257 groups', chain(2, 257)[0], b'refused 4 1\n'),
    ('5: name of group 257', head(256, 1, 0, 2) + wide(2, 256, 0)[0][12:] + name(257, 'A'), b'refused 5 258\n'),
    ('6: label of 32 bytes again', two_labels(2, 'A' * 32, 'A' * 32), b'refused 6 4\n'),
    ('labels that differ in the last of 32 bytes', two_labels(2, 'A' * 32, 'A' * 31 + 'B'), b'1 0 3 1 0\n'),
    ('labels that differ in the last of 17 bytes', two_labels(2, 'A' * 17, 'A' * 16 + 'B'), b'1 0 3 1 0\n'),
    ('labels of 16 and 32 bytes', two_labels(2, 'A' * 16, 'A' * 32), b'1 0 3 1 0\n'),
    ('7: a byte behind the largest', largest_2 + b'\n', b'refused 7 450\n'),
    ('the largest and 5,876 bytes', largest_2.ljust(16384, b'\0'), b'refused 7 450\n'),
    ('the largest and 10,000 bytes', largest_2 + b'\0' * 10000, b'refused 7 450\n'),
    # All 16,384 bytes are taken: the record is whole, and too long for its kind.
    ('16,384 bytes: one record', long_head(16384), b'refused 3 1\n'),
    # Only 16,384 of more are taken: the record is cut.
    ('16,385 bytes: one record', long_head(16385), b'refused 1 1\n'),
    ('65,537 bytes: one record', long_head(65537), b'refused 1 1\n'),
    ('16,383 bytes: one record', long_head(16383), b'refused 3 1\n'),
    ('8,193 bytes: one record', long_head(8193), b'refused 3 1\n'),
] + [('4: edition %d' % n, in_edition(n, printed), b'refused 4 1\n') for n in [0, 3, 4, 255, 256, 257, 258, 513, 65535]]
assert [len(long_head(n)) for n in (16383, 16384, 16385, 65537)] == [16383, 16384, 16385, 65537]

passed = failed = 0


def judge(what, want, out, err, status):
    global passed, failed
    if out == want and err == b'' and status >= 0:
        passed += 1
    else:
        failed += 1
        print('FAILED: %s: status %d\n  wanted %r\n  got    %r\n  errors %r'
              % (what, status, want, out, err))


def in_pieces(program, data, size, pause):
    run = subprocess.Popen([program], stdin=subprocess.PIPE, stdout=subprocess.PIPE,
                           stderr=subprocess.PIPE)
    try:
        for at in range(0, len(data), size):
            os.write(run.stdin.fileno(), data[at:at + size])
            if pause:
                time.sleep(pause)
        run.stdin.close()
    except BrokenPipeError:
        pass  # it has all it wants
    run.stdin = None
    out, err = run.communicate(timeout=60)
    return out, err, run.returncode


def main():
    program = os.path.abspath(sys.argv[1])
    for what, data, want in CASES:
        run = subprocess.run([program], input=data, capture_output=True, timeout=60)
        judge(what, want, run.stdout, run.stderr, run.returncode)
        with tempfile.TemporaryFile() as file:
            file.write(data)
            file.seek(0)
            run = subprocess.run([program], stdin=file, capture_output=True, timeout=60)
        judge(what + ' (from a file)', want, run.stdout, run.stderr, run.returncode)
    for what, data, want, size, pause in [
        ('one byte at a time', printed, printed_lines, 1, 0.002),
        ('cut within records', printed, printed_lines, 7, 0.005),
        ('head, a pause, the rest', printed, printed_lines, 12, 0.02),
        ('the largest of edition 1 in 1,000s', largest_1, largest_1_lines, 1000, 0.02),
        ('the largest in 1,000s', largest_2, largest_2_lines, 1000, 0.02),
        ('the largest in 33s', largest_2, largest_2_lines, 33, 0.0005),
        ('the largest, its last byte late', largest_2, largest_2_lines, 10507, 0.05),
        ('16,384 bytes in 4,096s', long_head(16384), b'refused 3 1\n', 4096, 0.02),
        ('16,384 bytes in 1,023s', long_head(16384), b'refused 3 1\n', 1023, 0.01),
        ('16,385 bytes in 4,096s', long_head(16385), b'refused 1 1\n', 4096, 0.02),
        ('16,385 bytes, the last one late', long_head(16385), b'refused 1 1\n', 16384, 0.05),
        ('a sheet and 20,000 bytes in 500s', printed + b'A' * 20000, b'refused 7 13\n', 500, 0.001),
    ]:
        judge(what, want, *in_pieces(program, data, size, pause))
    print('program: %d passed, %d failed' % (passed, failed))
    sys.exit(1 if failed or not passed else 0)


main()
