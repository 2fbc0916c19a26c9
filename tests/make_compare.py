#!/usr/bin/env python3
# Writes the standard input of the program compare, and what it is to print.
#
#     python3 tests/make_compare.py input > crates/compare/stdin
#     python3 tests/make_compare.py output > crates/compare/stdout
#
# The counts come from this file alone: it generates the same sheets, and has its own reader, search, checker and second solver, written from document 01 and
# the second and the fifth request of document 02. Nothing differs where the program is right, and its second solver judges the sheets whose terms name at most
# six lots, lot 0 among them.

import itertools
import sys


def numbers(*values):
    """Two-byte numbers, low byte first."""
    return b''.join(v.to_bytes(2, 'little') for v in values)


def number(data, at):
    return data[at] + 256 * data[at + 1]


def sheet(lots, conditions):
    """The bytes of a sheet: a condition is a list of terms, each a sign (1 same, 2 apart) and two lots, and its records follow each other; [] is withdrawn."""
    heads, records = [], []
    for terms in conditions:
        heads.append(len(records) + 1 if terms else 0)
        for i, (sign, a, b) in enumerate(terms):
            following = len(records) + 2 if i + 1 < len(terms) else 0
            records.append(bytes([sign, 0]) + numbers(a, b, following))
    return numbers(lots, len(heads), len(records)) + numbers(*heads) + b''.join(records)


VACANT = 'vacant'


def read(data):
    """The lots and the conditions of a sheet, a withdrawn one with no term, or the check and the place of its refusal."""
    if len(data) < 6:
        return 'refused', 1, 0
    n, m, k = number(data, 0), number(data, 2), number(data, 4)
    for i, (value, most) in enumerate(((n, 128), (m, 256), (k, 1024))):
        if value > most:
            return 'refused', 2, i + 1
    if len(data) != 6 + 2 * m + 8 * k:
        return 'refused', 3, 0
    heads = [number(data, 6 + 2 * c) for c in range(m)]
    for c, head in enumerate(heads):
        if head > k:
            return 'refused', 4, c + 1
    records = [None]
    for r in range(k):
        at = 6 + 2 * m + 8 * r
        if data[at:at + 8] == bytes(8):
            records.append(VACANT)
            continue
        sign, spare, a, b, following = data[at], data[at + 1], number(data, at + 2), number(data, at + 4), number(data, at + 6)
        if sign not in (1, 2) or spare or a > n or b > n or following > k:
            return 'refused', 5, r + 1
        records.append((sign, a, b, following))
    seen, conditions = set(), []
    for head in heads:
        r, terms = head, []
        while r:
            if records[r] is VACANT:
                return 'refused', 17, r
            if r in seen:
                return 'refused', 6, r
            seen.add(r)
            terms.append(records[r][:3])
            r = records[r][3]
        conditions.append(terms)
    for r in range(1, k + 1):
        if r not in seen and records[r] is not VACANT:
            return 'refused', 7, r
    return 'accepted', n, conditions


def partitions(n):
    """Every way to part n lots into groups: a number for each lot."""
    if n == 0:
        yield ()
        return
    for way in partitions(n - 1):
        for group in range(max(way, default=-1) + 2):
            yield way + (group,)


WAYS = {n: list(partitions(n)) for n in range(7)}


def can_be_met(conditions):
    """By trying every way to part the lots that the terms name; None where they name more than six. Lot 0 is a lot like others here: a term only asks whether
    two numbers are equal, and whatever the way, its groups can be given numbers of which that of lot 0 is 0."""
    names = sorted({lot for terms in conditions for term in terms for lot in term[1:]})
    if len(names) > 6:
        return None

    def meets(way):
        group = dict(zip(names, way))
        return all(not terms or any((group[a] == group[b]) == (sign == 1) for sign, a, b in terms) for terms in conditions)
    return any(map(meets, WAYS[len(names)]))


def term_value(decisions, sign, a, b):
    """True, False, or None for an open term, under decisions: (True, a, b) for a pair set same, (False, a, b) for a pair set apart."""
    root = {}

    def find(x):
        while x in root:
            x = root[x]
        return x
    for same, x, y in decisions:
        if same and find(x) != find(y):
            root[max(find(x), find(y))] = min(find(x), find(y))
    if find(a) == find(b):
        return sign == 1
    if any(not same and {find(x), find(y)} == {find(a), find(b)} for same, x, y in decisions):
        return sign == 2
    return None


def value_by_lots(decisions, sign, a, b):
    """A wrong turn: a mark is tested on the two lots and not on their consignments."""
    joined = term_value([d for d in decisions if d[0]], sign, a, b)
    if joined is None and any(not same and {x, y} == {a, b} for same, x, y in decisions):
        return sign == 2
    return joined


def search(conditions, value=term_value, kept=False, taken=False):
    """The verdict and the node records: [kind, first, second, next]. `kept`, a wrong turn: a join stays when the apart branch starts. `taken`, another one: a
    withdrawn condition is not passed over."""
    nodes = []

    def visit(decisions):
        for c, terms in enumerate(conditions):
            if not terms and not taken:
                continue
            values = [value(decisions, *t) for t in terms]
            if True in values or any(v is None and t[0] == 2 for v, t in zip(values, terms)):
                continue
            if None not in values:
                nodes.append([2, c + 1, 0, 0])
                return False
            _, a, b = terms[values.index(None)]
            here = [1, a, b, 0]
            nodes.append(here)
            if visit(decisions + [(True, a, b)]):
                return True
            here[3] = len(nodes) + 1
            return visit(decisions + [(True, a, b)] * kept + [(False, a, b)])
        nodes.append([3, 0, 0, 0])
        return True
    return ('met' if visit([]) else 'cannot'), nodes


def list_bytes(nodes):
    return b''.join(bytes([n[0], 0]) + numbers(*n[1:]) for n in nodes)


def check(data, nodes):
    """'passed', or the check and the place of a refusal, for a sheet's bytes and a list's."""
    reading = read(data)
    if reading[0] == 'refused':
        return reading
    _, n, conditions = reading
    if not nodes or len(nodes) % 8 or len(nodes) // 8 > 65535:
        return 'refused', 10, 0
    path, count = [], len(nodes) // 8
    for r in range(1, count + 1):
        at = 8 * (r - 1)
        kind, spare, first, second, following = nodes[at], nodes[at + 1], number(nodes, at + 2), number(nodes, at + 4), number(nodes, at + 6)
        if kind not in (1, 2) or spare:
            return 'refused', 11, r
        if kind == 1:
            if first > n or second > n:
                return 'refused', 11, r
            if len(path) >= 1024:
                return 'refused', 15, r
            path.append([True, first, second, following, r])
            continue
        if not 1 <= first <= len(conditions) or second or following:
            return 'refused', 11, r
        decisions = [tuple(p[:3]) for p in path]
        terms = conditions[first - 1]
        if not terms or any(term_value(decisions, *t) is not False for t in terms):
            return 'refused', 12, r
        while path and not path[-1][0]:
            path.pop()
        if not path:
            return ('passed',) if r == count else ('refused', 14, r + 1)
        if path[-1][3] != r + 1:
            return 'refused', 13, path[-1][4]
        path[-1][0] = False
    return 'refused', 14, count + 1


# The generated sheets.

def generated(count, relinked=False):
    """Terms name up to six lots, of 0 to n in half of the sheets and of 1 to n in the others. One condition of six is withdrawn. Relinked: a record is made
    vacant, or a next is set to any record, or both."""
    state = 1

    def below(bound):
        nonlocal state
        state = (state * 1103515245 + 12345) % 2**31
        return state // 65536 % bound
    for _ in range(count):
        lowest, lots, m, conditions, drawn = below(2), 1 + below(6), 1 + below(8), [], []
        for c in range(m):
            conditions.append([(1 if below(5) < 3 else 2, lowest + below(lots), lowest + below(lots)) for _ in range(1 + below(4))])
            drawn += [c] * (below(6) == 0)
        data = sheet(lowest + lots - 1, conditions)
        for c in drawn:
            data = withdrawn(data, c + 1)
        if relinked:
            k = number(data, 4)
            way, blank, start, end = below(3), 1 + below(k), 1 + below(k), 1 + below(k)
            if way != 0:
                data = blanked(data, blank)
            if way != 1:
                data = linked(data, start, end)
        yield data


# Heads and records changed.

def head_place(condition):
    return 6 + 2 * (condition - 1)


def record_place(data, record):
    return 6 + 2 * number(data, 2) + 8 * (record - 1)


def headed(data, condition, head):
    """The condition begins at that record."""
    at = head_place(condition)
    return data[:at] + numbers(head) + data[at + 2:]


def linked(data, record, following):
    """The next of the record is that one."""
    at = record_place(data, record) + 6
    return data[:at] + numbers(following) + data[at + 2:]


def blanked(data, *records):
    """These records are vacant."""
    for record in records:
        at = record_place(data, record)
        data = data[:at] + bytes(8) + data[at + 8:]
    return data


def chain_of(data, condition):
    """The records of a condition, in the order of its chain."""
    record, chain = number(data, head_place(condition)), []
    while record:
        chain.append(record)
        record = number(data, record_place(data, record) + 6)
    return chain


def withdrawn(data, *conditions):
    """These conditions have a zero head, and their records are vacant."""
    for condition in conditions:
        data = headed(blanked(data, *chain_of(data, condition)), condition, 0)
    return data


# The families of source document 001, part 7.

def phe(n):
    """Lots 1 to n differ, and for each of them another one is the same as lot n + 1: cannot, n * n + n - 1 nodes."""
    lots = range(1, n + 1)
    differ = [[(2, i, j)] for i, j in itertools.combinations(lots, 2)]
    return sheet(n + 1, differ + [[(1, j, n + 1) for j in lots if j != i] for i in lots])


def circ(n):
    """Of the n equations of neighbours on a ring one is false, and no two are: cannot, n * n - n + 1 nodes."""
    ring = [(i, i % n + 1) for i in range(1, n + 1)]
    return sheet(n, [[(2, *e) for e in ring]] + [[(1, *d), (1, *e)] for d, e in itertools.combinations(ring, 2)])


def own_records(lots, heads, records):
    """A sheet of which each record is given whole: sign, lots, next."""
    return numbers(lots, len(heads), len(records)) + numbers(*heads) + b''.join(bytes([r[0], 0]) + numbers(*r[1:]) for r in records)


def changed(data, at, value):
    """The same bytes but for one."""
    return data[:at] + bytes([value]) + data[at + 1:]


def renamed(data, *lots):
    """A sheet of three lots with these in their places; lots up to the last of them."""
    return sheet(max(lots), [[(sign, lots[a - 1], lots[b - 1]) for sign, a, b in terms] for terms in read(data)[2]])


def turned(conditions):
    """The same conditions, with the two lots of each term exchanged."""
    return [[(sign, b, a) for sign, a, b in terms] for terms in conditions]


S, T = 1, 2  # same, apart

A = sheet(3, [[(S, 1, 2)], [(S, 2, 3)], [(T, 1, 3)]])
C = sheet(3, [[(S, 1, 2), (S, 1, 3)], [(T, 1, 2)]])
D = sheet(3, [[(T, 1, 2), (T, 2, 3), (T, 3, 1)], [(S, 1, 2), (S, 2, 3)], [(S, 1, 2), (S, 3, 1)], [(S, 2, 3), (S, 3, 1)]])

CHAIN = [[(S, a, a + 1)] for a in range(4)]  # lots 0 to 4, each the same as the next

GROUPS = [
    ('starred', [
        A,
        sheet(3, [[(S, 1, 2), (T, 2, 3)], [(S, 1, 3), (T, 1, 2), (S, 2, 3)], [(T, 1, 3)]]),
        C, D,
        sheet(0, []), sheet(0, [[]]), sheet(1, [[(S, 1, 1)]]), sheet(1, [[(T, 1, 1)]]),
    ]),
    ('unstarred', [
        sheet(128, []), sheet(128, [[(S, 128, 128)]]), sheet(129, []), sheet(129, [[(S, 129, 129)]]),
        own_records(1, [1], [(S, 1, 1, 1)]),
    ]),
    ('few of many lots', [  # starred sheets, and one that names six lots, with other lots, up to the last
        sheet(128, [[(S, 5, 77)], [(S, 77, 128)], [(T, 5, 128)]]),
        sheet(128, [[(S, 9, 8), (S, 9, 128)], [(T, 9, 8)]]),
        sheet(100, [[(T, 90, 17), (T, 17, 99), (T, 99, 90)], [(S, 90, 17), (S, 17, 99)], [(S, 90, 17), (S, 99, 90)], [(S, 17, 99), (S, 99, 90)]]),
        sheet(128, [[(S, 123, 124), (S, 125, 126), (S, 127, 128)], [(T, 123, 124)], [(T, 125, 126)], [(T, 127, 128)]]),
    ]),
    ('refused', [  # by each check in turn, and by the first of two
        b'', C[:5], numbers(129, 257, 1025), numbers(128, 257, 1025), numbers(128, 256, 1025), C[:-1], C + bytes(1),
        changed(C, 6, 4), changed(C, 9, 1), changed(C, 10, 0), changed(C, 18, 3), changed(C, 27, 1),
        changed(C, 12, 4), changed(C, 13, 1), changed(C, 14, 4), changed(changed(C, 22, 0), 23, 1), changed(C, 24, 4),
        changed(changed(C, 12, 0), 14, 4), changed(changed(C, 12, 4), 14, 0), sheet(0, [[(S, 1, 0)]]), sheet(0, [[(S, 0, 1)]]),
        changed(changed(C, 8, 4), 10, 0), changed(changed(C, 10, 0), 18, 0), changed(changed(C, 16, 1), 26, 0),
        changed(C, 16, 1), changed(C, 16, 3), changed(C, 8, 2), changed(C, 8, 1), changed(C, 16, 0), changed(C, 6, 0), changed(C, 8, 0),
    ]),
    ('lot 0', [  # alone and with one other lot; in the place of each lot of starred sheets, of few lots and of many; and lots joined to it, from either side
        *[sheet(n, [[(sign, 0, 0)]]) for n in (0, 1, 128) for sign in (S, T)], sheet(0, [[(S, 0, 0)], [(T, 0, 0)]]), sheet(0, [[(T, 0, 0), (S, 0, 0)]]),
        *[sheet(1, [[(sign, *pair)]]) for sign in (S, T) for pair in ((0, 1), (1, 0))],
        sheet(1, [[(S, 0, 1)], [(T, 1, 0)]]), sheet(1, [[(S, 1, 0)], [(T, 0, 1)]]), sheet(128, [[(S, 0, 128)], [(T, 128, 0)]]),
        *[renamed(data, *lots) for data in (A, C, D) for lots in ((0, 1, 2), (1, 0, 2), (2, 1, 0), (0, 77, 128), (128, 0, 5), (127, 128, 0))],
        sheet(4, CHAIN), sheet(4, CHAIN[::-1]), sheet(4, turned(CHAIN)), sheet(4, turned(CHAIN)[::-1]),
        *[sheet(4, conditions + [[(T, 4, 0)]]) for conditions in (CHAIN, CHAIN[::-1], turned(CHAIN), turned(CHAIN)[::-1])],
        *[sheet(4, [[(S, 1, 2)], [(S, 4, 3)], [(S, a, 0)], [(S, 0, b)], [(T, 1, 3)]]) for a, b in ((1, 3), (2, 4), (4, 2))],
        sheet(5, [[(S, 1, 5), (S, 0, 5), (S, 5, 2)], [(T, 5, 1)], [(T, 0, 5)], [(S, 2, 0), (S, 5, 3)]]),
        sheet(128, [[(S, 0, lot)] for lot in range(1, 129)]), sheet(128, [[(S, lot, lot - 1)] for lot in range(128, 0, -1)]),
    ]),
    ('withdrawn', [  # some conditions of starred sheets, in the middle and at both ends, and all of them; a refutation that goes on around withdrawn ones
        *[withdrawn(A, c) for c in (1, 2, 3)], *[withdrawn(C, c) for c in (1, 2)], *[withdrawn(D, c) for c in (1, 2, 3, 4)],
        withdrawn(A, 1, 3), withdrawn(A, 1, 2, 3), withdrawn(D, 2, 3), sheet(0, [[], [], []]), sheet(128, [[]] * 256),
        sheet(3, [[], [(S, 1, 2)], [], [(S, 2, 3)], [(T, 1, 3)], []]),
        withdrawn(sheet(3, [[(S, 1, 3)], [(S, 1, 2)], [(T, 1, 1)], [(S, 2, 3)], [(T, 1, 3)]]), 1, 3),
    ]),
    # Between the records of a chain, and where there are no conditions and no lots; then bytes that are not all zero, the first time a sign, which makes the
    # record a term of lot 0 that no chain reaches; and records not blanked.
    ('vacant', [
        own_records(3, [2], [(0, 0, 0, 0), (S, 1, 2, 4), (0, 0, 0, 0), (T, 1, 2, 0)]), own_records(1, [3], [(0, 0, 0, 0), (0, 0, 0, 0), (T, 1, 1, 0)]),
        numbers(3, 0, 2) + bytes(16), numbers(0, 0, 1) + bytes(8), numbers(0, 1, 1) + bytes(10),
        *[changed(withdrawn(C, 1), 10 + i, 1) for i in range(8)],
        headed(C, 1, 0), headed(C, 2, 0), headed(blanked(C, 1), 1, 0), headed(blanked(C, 2), 1, 0), linked(withdrawn(C, 2), 1, 0),
    ]),
    ('into vacant', [  # from a head and from a next; checks 4 and 5 before it, 7 behind it; and the walk alone decides between it and a loop
        blanked(C, 1), blanked(C, 2), blanked(C, 3), blanked(C, 2, 3), headed(blanked(C, 3), 1, 3),
        headed(blanked(C, 1), 2, 4), changed(blanked(C, 1), 26, 3), linked(blanked(C, 3), 1, 0),
        linked(blanked(C, 2), 3, 3), linked(blanked(C, 3), 1, 1), headed(headed(linked(blanked(C, 3), 1, 1), 1, 3), 2, 1),
        headed(headed(linked(blanked(C, 1), 3, 3), 1, 3), 2, 1), headed(withdrawn(C, 1), 1, 2), headed(withdrawn(C, 2), 2, 2),
    ]),
    ('phe', [phe(n) for n in range(2, 11)]),  # in phe(1) there is no other lot, and so no term
    ('circ', [circ(n) for n in range(1, 11)]),
    ('mark on lots', [  # a mark tested on the two lots takes two nodes more
        sheet(3, [[(T, 1, 2)], [(S, 3, 2)], [(S, 2, 1), (S, 1, 3)]]),
        sheet(4, [[(S, 3, 4), (S, 2, 3), (S, 1, 2)], [(T, 3, 4)], [(S, 4, 2)]]),
    ]),
    ('join stays', [  # met, and cannot where the join is kept in the apart branch
        sheet(3, [[(T, 2, 3)], [(S, 3, 2), (S, 2, 1)]]),
        sheet(4, [[(S, 1, 2), (S, 3, 4)], [(T, 1, 2)], [(T, 1, 3)]]),
    ]),
    ('one ground', [  # met, after one ground and after three
        sheet(3, [[(S, 1, 2), (S, 2, 3)], [(T, 1, 2)]]),
        sheet(4, [[(S, 1, 2), (S, 1, 3), (S, 1, 4), (S, 2, 3)], [(T, 1, 2)], [(T, 1, 3)], [(T, 1, 4)]]),
    ]),
    ('looped chain', [  # back to the first record, to the second, and to another chain
        own_records(2, [1], [(S, 1, 2, 2), (T, 1, 2, 1)]),
        own_records(3, [1], [(S, 1, 2, 2), (T, 1, 2, 3), (S, 2, 3, 2)]),
        own_records(2, [1, 2], [(S, 1, 2, 0), (T, 1, 2, 1)]),
    ]),
]


def answer(data):
    """What the search is to answer, its nodes, and whether the second solver judges the sheet, which is so of every sheet that is refused."""
    reading = read(data)
    if reading[0] == 'refused':
        return reading, [], True
    verdict, nodes = search(reading[2])
    judged = can_be_met(reading[2])
    assert judged in (None, verdict == 'met')
    return (verdict, len(nodes)), nodes, judged is not None


def changes(data):
    """Every byte changed in three ways."""
    for at, byte in enumerate(data):
        for value in ((byte + 1) % 256, byte ^ 1, byte ^ 128):
            yield changed(data, at, value)


def withdrawals(data):
    """Each condition in three ways: its head zero and its records left, withdrawn, its records vacant and its head left."""
    for c in range(1, number(data, 2) + 1):
        yield headed(data, c, 0)
        yield withdrawn(data, c)
        yield headed(withdrawn(data, c), c, number(data, head_place(c)))


class Damage:
    def __init__(self):
        self.tried = self.passed = self.wrong = self.untested = 0

    def count(self, data, nodes):
        self.tried += 1
        if check(data, nodes) == ('passed',):
            verdict = can_be_met(read(data)[2])
            self.passed += 1
            self.wrong += verdict is True
            self.untested += verdict is None

    def line(self, label):
        return '%s: tried %d passed %d wrong %d untested %d differ 0' % (label, self.tried, self.passed, self.wrong, self.untested)


def group_line(name, sheets, lists, bytes_of_sheets, conditions):
    """The line of a group; the refutations that the second solver bears out are damaged, and conditions of their sheets withdrawn."""
    verdicts, count, untested = [], 0, 0
    for data in sheets:
        said, nodes, judged = answer(data)
        verdicts.append(said[0])
        count += len(nodes)
        untested += not judged
        if said[0] == 'cannot' and judged:
            refutation = list_bytes(nodes)
            assert check(data, refutation) == ('passed',)
            for other in changes(refutation):
                lists.count(data, other)
            for other in changes(data):
                bytes_of_sheets.count(other, refutation)
            for other in withdrawals(data):
                conditions.count(other, refutation)
    each = ' '.join('%s %d' % (v, verdicts.count(v)) for v in ('met', 'cannot', 'refused'))
    return '%s: sheets %d %s nodes %d untested %d differ 0' % (name, len(verdicts), each, count, untested)


def said(verdict):
    return ' '.join(map(str, verdict))


def many_splits(s):
    """A list with s splits on a path, and s + 1 grounds."""
    return [[1, 1, 1, 2 * s + 2 - r] for r in range(1, s + 1)] + [[2, 1, 0, 0]] * (s + 1)


def write_input():
    for name, sheets in GROUPS:
        print('group ' + name)
        for data in sheets:
            print(('%s: %s' % (said(answer(data)[0]), data.hex(' ', -2))).rstrip())
        print('end')


def write_output():
    damages = Damage(), Damage(), Damage()
    print(group_line('generated', generated(600), *damages))
    print(group_line('relinked', generated(600, relinked=True), *damages))
    for name, group in GROUPS:
        print(group_line(name, group, *damages))
    for damage, label in zip(damages, ('damaged lists', 'damaged sheets', 'withdrawn conditions')):
        print(damage.line(label))
    print('ground of a withdrawn condition: %s' % said(check(sheet(1, [[]]), list_bytes([[2, 1, 0, 0]]))))
    print('ground of condition 0: %s' % said(check(sheet(1, [[(T, 1, 1)]]), list_bytes([[2, 0, 0, 0]]))))
    for a, b in ((0, 0), (0, 1), (1, 0)):
        print('split of lots %d and %d where n is 0: %s' % (a, b, said(check(sheet(0, [[(T, 0, 0)]]), list_bytes([[1, a, b, 3], [2, 1, 0, 0], [2, 1, 0, 0]])))))
    for s in (1024, 1025):
        print('splits on a path %d: %s' % (s, said(check(sheet(1, [[(T, 1, 1)]]), list_bytes(many_splits(s))))))


# Lot 0 is no flaw, and every sheet of the group of refusals has one.
assert all(read(data)[0] == 'accepted' for name, sheets in GROUPS if name == 'lot 0' for data in sheets)
assert all(read(data)[0] == 'refused' for name, sheets in GROUPS if name == 'refused' for data in sheets)

# A program that took the wrong turn would answer these sheets otherwise.
TURNS = {name: [read(data)[2] for data in sheets] for name, sheets in GROUPS if name in ('withdrawn', 'mark on lots', 'join stays', 'one ground')}
assert all(search(c, taken=True) != search(c) for c in TURNS['withdrawn'])
assert all(len(search(c, value_by_lots)[1]) != len(search(c)[1]) for c in TURNS['mark on lots'])
assert all((search(c, kept=True)[0], search(c)[0]) == ('cannot', 'met') for c in TURNS['join stays'])
assert all(search(c)[0] == 'met' and any(n[0] == 2 for n in search(c)[1]) for c in TURNS['one ground'])

for n in range(2, 11):
    assert answer(phe(n))[0] == ('cannot', n * n + n - 1)
for n in range(1, 11):
    assert answer(circ(n))[0] == ('cannot', n * n - n + 1)
{'input': write_input, 'output': write_output}[sys.argv[1]]()
