#!/usr/bin/env python3
# Writes the standard input of the program print_examples: a case a line, its label and its sheet in hexadecimal.
#
#     python3 tests/make_examples.py > crates/print_examples/stdin
#
# The cases are the starred sheets of document 01 (but for "C with S = 3": the program has 7,000 records, and the row stands in the proved table), sheets with
# withdrawn conditions and vacant records, sheets that name lot 0, a refusal by each of checks 1 to 7 and 17 and by a full store, sheets with no lots and with
# the most, and phe(5) and circ(5) of source document 001, part 7. Nothing here searches: what the program is to print for these stands in
# crates/print_examples/stdout.


def numbers(*values):
    """Two-byte numbers, low byte first."""
    return b''.join(v.to_bytes(2, 'little') for v in values)


def term(text):
    """A term, as 'same 1 2', as its sign and lots."""
    word, a, b = text.split()
    return {'same': 1, 'apart': 2}[word], int(a), int(b)


def sheet(lots, conditions):
    """The bytes of a sheet: each condition is its terms joined by ' or ', and has its records one after the other; '' is withdrawn."""
    heads, records = [], []
    for condition in conditions:
        terms = [term(t) for t in condition.split(' or ')] if condition else []
        heads.append(len(records) + 1 if terms else 0)
        for i, (sign, a, b) in enumerate(terms):
            following = len(records) + 2 if i + 1 < len(terms) else 0
            records.append(bytes([sign, 0]) + numbers(a, b, following))
    return numbers(lots, len(heads), len(records)) + numbers(*heads) + b''.join(records)


def changed(data, at, value):
    """The same bytes but for one."""
    return data[:at] + bytes([value]) + data[at + 1:]


def blanked(data, *records):
    """The same bytes but for these records, which are vacant."""
    for record in records:
        at = 6 + 2 * int.from_bytes(data[2:4], 'little') + 8 * (record - 1)
        data = data[:at] + bytes(8) + data[at + 8:]
    return data


def phe(n):
    """Lots 1 to n differ, and for each of them another one is the same as lot n + 1."""
    lots = range(1, n + 1)
    differ = ['apart %d %d' % (i, j) for i in lots for j in lots if i < j]
    hit = [' or '.join('same %d %d' % (j, n + 1) for j in lots if j != i) for i in lots]
    return sheet(n + 1, differ + hit)


def circ(n):
    """Of the n equations of neighbours on a ring one is false, and no two are."""
    ring = ['%d %d' % (i, i % n + 1) for i in range(1, n + 1)]
    false = ' or '.join('apart ' + e for e in ring)
    pairs = ['same %s or same %s' % (d, e) for i, d in enumerate(ring) for e in ring[i + 1:]]
    return sheet(n, [false] + pairs)


def doubling(conditions):
    """Conditions of two "same" terms, no two of which share a lot, then one that nothing meets: 4 * 2**conditions - 3 nodes."""
    two = ['same %d %d or same %d %d' % (i + 1, i + 2, i + 3, i + 4) for i in range(0, 4 * conditions, 4)]
    return sheet(4 * conditions, two + ['apart 1 1'])


C = sheet(3, ['same 1 2 or same 1 3', 'apart 1 2'])

CASES = [
    ('A', sheet(3, ['same 1 2', 'same 2 3', 'apart 1 3'])),
    ('B', sheet(3, ['same 1 2 or apart 2 3', 'same 1 3 or apart 1 2 or same 2 3', 'apart 1 3'])),
    ('C', C),
    ('D', sheet(3, ['apart 1 2 or apart 2 3 or apart 3 1', 'same 1 2 or same 2 3', 'same 1 2 or same 3 1', 'same 2 3 or same 3 1'])),
    ('no lots, conditions and terms', sheet(0, [])),
    ('one condition, head zero', sheet(0, [''])),
    ('same 1 1', sheet(1, ['same 1 1'])),
    ('apart 1 1', sheet(1, ['apart 1 1'])),
    ('no lots, three conditions withdrawn', sheet(0, ['', '', ''])),
    ('C, condition 1 withdrawn', blanked(changed(C, 6, 0), 1, 2)),
    ('C, condition 2 withdrawn', blanked(changed(C, 8, 0), 3)),
    ('A behind a withdrawn condition', sheet(3, ['', 'same 1 2', 'same 2 3', 'apart 1 3'])),
    ('a vacant record before the only term', numbers(1, 1, 2) + numbers(2) + bytes(8) + bytes([1, 0]) + numbers(1, 1, 0)),
    ('no lots and conditions, two vacant records', numbers(0, 0, 2) + bytes(16)),
    ('same 0 0', sheet(0, ['same 0 0'])),
    ('apart 0 0', sheet(0, ['apart 0 0'])),
    ('same 0 1', sheet(1, ['same 0 1'])),
    ('apart 1 0', sheet(1, ['apart 1 0'])),
    ('same 0 1; apart 1 0', sheet(1, ['same 0 1', 'apart 1 0'])),
    ('A, lot 0 for lot 2', sheet(3, ['same 1 0', 'same 0 3', 'apart 1 3'])),
    ('C, lots 0 to 2 for 1 to 3', sheet(2, ['same 0 1 or same 0 2', 'apart 0 1'])),
    ('C, lot 0 for lot 2', sheet(3, ['same 1 0 or same 1 3', 'apart 1 0'])),
    ('a class marked apart from that of lot 0', sheet(3, ['apart 0 1', 'same 2 0', 'same 2 1 or same 3 1'])),
    ('two classes joined by lot 0', sheet(5, ['same 1 2', 'same 5 4', 'same 4 0', 'same 0 2'])),
    ('lots 8 to 1, each the same as lot 0', sheet(9, ['same 0 %d' % lot for lot in range(8, 0, -1)])),
    ('lots 128 to 1, each the same as the one below it', sheet(128, ['same %d %d' % (lot, lot - 1) for lot in range(128, 0, -1)])),
    ('C, record 2 all zero but for the sign', changed(blanked(C, 2), 18, 1)),
    ('a vacant record before same 0 0', numbers(0, 1, 2) + numbers(2) + bytes(8) + bytes([1, 0]) + numbers(0, 0, 0)),
    ('128 lots, no condition', sheet(128, [])),
    ('check 1, five bytes', C[:5]),
    ('check 2, 129 lots', sheet(129, [])),
    ('check 3, C and a byte more', C + bytes(1)),
    ('check 4, head 2 of C above k', changed(C, 8, 4)),
    ('check 5, sign 3 in record 2 of C', changed(C, 18, 3)),
    ('check 5, record 2 of C all zero but for the last byte', changed(blanked(C, 2), 25, 1)),
    ('check 5, lot 1 beside lot 0 without lots', sheet(0, ['same 0 1'])),
    ('check 17, a next of C on a vacant record', blanked(C, 2)),
    ('check 17, a head of C on a vacant record', blanked(C, 3)),
    ('check 6, a next that is its own record', numbers(1, 1, 1) + numbers(1) + bytes([1, 0]) + numbers(1, 1, 1)),
    ('check 7, record 1 on no chain', numbers(1, 1, 1) + numbers(0) + bytes([1, 0]) + numbers(1, 1, 0)),
    ('check 7, head 1 of C zero and its records left', changed(C, 6, 0)),
    ('check 7, head 1 of C zero and one of its records left', blanked(changed(C, 6, 0), 1)),
    ('check 9, 8189 nodes', doubling(11)),
    ('phe 5', phe(5)),
    ('circ 5', circ(5)),
]

for label, data in CASES:
    print('%s: %s' % (label, data.hex(' ', -2)))
