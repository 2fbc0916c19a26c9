"""Calls the services from Python, on document 01's sheets A and C, on C with each lot one lower, and on two lots apart with a limit on the number of classes;
one lot of sheet C is reassigned. Its argument is a shared library made from the archive."""
import ctypes
import sys


class Numbers(ctypes.Structure):
    _fields_ = [(name, ctypes.c_uint32) for name in ("check", "first", "second", "third")]

    def all(self):
        return (self.check, self.first, self.second, self.third)


def lend(argument):
    """The memory of a buffer; None for a number. A bytearray is lent as it is, so that what the service writes is seen; bytes are copied."""
    if isinstance(argument, int):
        return None
    if isinstance(argument, bytearray):
        return (ctypes.c_uint8 * max(1, len(argument))).from_buffer(argument)
    return ctypes.create_string_buffer(argument, len(argument) + 1)


BUFFER = [ctypes.c_void_p, ctypes.c_size_t]


def service(library, name, buffers, limited=False, numbers=()):
    """A function of so many buffers; with a limit, which stands behind the first of them, and with numbers of these types behind the last."""
    function = getattr(library, name)
    function.restype = Numbers
    function.argtypes = BUFFER + [ctypes.c_uint32] * limited + BUFFER * (buffers - 1) + list(numbers)

    def call(*arguments):
        lent = [lend(a) for a in arguments]
        flat = [part for view, a in zip(lent, arguments) for part in ((ctypes.addressof(view), len(a)) if view else (a,))]
        return function(*flat).all()

    return call


C = bytes.fromhex("030002000300 01000300 0100010002000200 0100010003000000 0200010002000000")
C_IN_ANOTHER_ORDER = bytes.fromhex("030002000300 03000200 0100010003000000 0200010002000000 0100010002000100")


def sheet_c(read, search, evaluate):
    grouping, store = bytearray(b"\xaa" * 5), bytearray(b"\xaa" * 41)
    assert read(C) == (0, 3, 2, 3)
    assert search(C, grouping, store) == (0, 1, 4, 0)
    assert grouping == bytes([1, 2, 1, 0xAA, 0xAA])
    assert store == bytes.fromhex("0100010002000300 0200020000000000 0100010003000000 0300000000000000") + b"\xaa" * 9
    assert evaluate(C, bytes(grouping)) == (0, 0, 0, 0)
    assert evaluate(C, bytes([7, 8, 9])) == (0, 1, 0, 0)
    assert evaluate(C, bytes([7, 7])) == (8, 3, 0, 0)


def store_full(search):
    grouping, store = bytearray(b"\xaa" * 3), bytearray(b"\xaa" * 31)
    assert search(C, grouping, store) == (9, 3, 0, 0)
    assert grouping == b"\xaa" * 3 and store == bytes(24) + b"\xaa" * 7


def sheet_a(search, check):
    sheet = bytes.fromhex("030003000300 010002000300 0100010002000000 0100020003000000 0200010003000000")
    grouping, store = bytearray(3), bytearray(40)
    assert search(sheet, grouping, store) == (0, 2, 5, 0)
    assert check(sheet, bytes(store)) == (0, 0, 0, 0)
    assert check(sheet, bytes(store[:32])) == (14, 5, 0, 0)
    assert check(sheet[:5], bytes(store)) == (1, 0, 0, 0)
    store[6] = 4
    assert check(sheet, bytes(store)) == (13, 1, 0, 0)


def reordered(repack):
    out = bytearray(b"\xaa" * 36)
    assert repack(C_IN_ANOTHER_ORDER, out) == (0, 34, 0, 0)
    assert out == C + b"\xaa" * 2
    short = bytearray(b"\xaa" * 33)
    assert repack(C, short) == (16, 34, 0, 0)
    assert repack(C[:33], short) == (3, 0, 0, 0)
    assert short == b"\xaa" * 33


C_WITHDRAWN = bytes.fromhex("030002000300 00000300 0000000000000000 0000000000000000 0200010002000000")


def withdrawn(read, search, evaluate, check, repack):
    sheet = C_WITHDRAWN
    grouping, store, out = bytearray(3), bytearray(8), bytearray(18)
    assert read(sheet) == (0, 3, 2, 3)
    assert search(sheet, grouping, store) == (0, 1, 1, 0)
    assert grouping == bytes([1, 2, 3]) and store == bytes([3, 0, 0, 0, 0, 0, 0, 0])
    assert evaluate(sheet, bytes([1, 1, 1])) == (0, 2, 0, 0)
    assert check(sheet, bytes([2, 0, 1, 0, 0, 0, 0, 0])) == (12, 1, 0, 0)
    assert repack(sheet, out) == (0, 18, 0, 0)
    assert out == bytes.fromhex("030002000100 00000100 0200010002000000")
    assert read(C[:18] + bytes(8) + C[26:]) == (17, 2, 0, 0)


def merged(merge):
    e = bytes.fromhex("040003000400 020004000300 0100010002000000 0200010002000000 0100030004000000 0100010003000100")
    records = "0100010002000200 0100010003000000 0200010002000000 0100010003000500 0100010002000000 0100030004000000"
    out = bytearray(b"\xaa" * 64)
    assert merge(C, e, out) == (0, 62, 0, 0)
    assert out == bytes.fromhex("040004000600 0100030004000600" + records) + b"\xaa" * 2
    short = bytearray(b"\xaa" * 61)
    assert merge(C, e, short) == (19, 62, 0, 0)
    assert merge(C[:33], e[:5], short) == (3, 0, 1, 0)
    assert merge(C, e[:5], short) == (1, 0, 2, 0)
    assert short == b"\xaa" * 61
    assert merge(C, C_IN_ANOTHER_ORDER, short) == (0, 34, 0, 0)
    assert short == C + b"\xaa" * 27


def merged_withdrawn(merge):
    out = bytearray(b"\xaa" * 22)
    assert merge(C_WITHDRAWN, C_WITHDRAWN, bytearray(19)) == (19, 20, 0, 0)
    assert merge(C_WITHDRAWN, C_WITHDRAWN, out) == (0, 20, 0, 0)
    assert out == bytes.fromhex("030003000100 000001000000 0200010002000000") + b"\xaa" * 2
    most = bytes([0, 0, 0, 1]) + bytes(514)
    assert merge(most, C_WITHDRAWN, out) == (18, 2, 0, 0)
    assert merge(most[:2] + bytes([255, 0]) + most[4:516], bytes([0, 0, 1, 0, 0, 0, 0, 0]), bytearray(518)) == (0, 518, 0, 0)


def zero_lot(read, search, evaluate, check):
    lower = bytes.fromhex("020002000300 01000300 0100000001000200 0100000002000000 0200000001000000")
    grouping, store = bytearray(b"\xaa" * 3), bytearray(b"\xaa" * 33)
    assert read(lower) == (0, 2, 2, 3)
    assert search(lower, grouping, store) == (0, 1, 4, 0)
    assert grouping == bytes([1, 0, 0xAA])
    assert store == bytes.fromhex("0100000001000300 0200020000000000 0100000002000000 0300000000000000") + b"\xaa"
    assert evaluate(lower, bytes([1, 0])) == (0, 0, 0, 0)
    assert evaluate(lower, bytes([7, 7])) == (0, 1, 0, 0)
    assert evaluate(lower, bytes([0, 7])) == (0, 2, 0, 0)
    assert check(lower, bytes.fromhex("0100000001000300 0200020000000000 0200010000000000")) == (12, 3, 0, 0)
    assert check(lower, bytes.fromhex("0100010000000300 0200000000000000 0200010000000000")) == (11, 2, 0, 0)
    apart_0_0 = bytes.fromhex("000001000100 0100 0200000000000000")
    assert read(apart_0_0) == (0, 0, 1, 1)
    assert check(apart_0_0, bytes.fromhex("0100000000000300 0200010000000000 0200010000000000")) == (0, 0, 0, 0)


def limited(search_limited, check_limited, check):
    apart_1_2 = bytes.fromhex("020001000100 0100 0200010002000000")
    grouping, store = bytearray(b"\xaa" * 3), bytearray(b"\xaa" * 41)
    for limit in (0, 130, 257, 65793, 2**32 - 1):
        assert search_limited(apart_1_2, limit, bytearray(1), store) == (20, limit, 0, 0)
        assert check_limited(apart_1_2, limit, b"") == (20, limit, 0, 0)
    assert search_limited(apart_1_2, 1, grouping, store) == (0, 2, 5, 0)
    assert store == bytes.fromhex("0100000001000500 0100000002000400 0200010000000000 0400000000000000 0400000000000000") + b"\xaa"
    assert grouping == b"\xaa" * 3
    assert check_limited(apart_1_2, 1, bytes(store[:40])) == (0, 0, 0, 0)
    assert check_limited(apart_1_2, 2, bytes(store[:40])) == (12, 4, 0, 0)
    assert check(apart_1_2, bytes(store[:40])) == (11, 4, 0, 0)
    assert search_limited(apart_1_2, 2, grouping, store) == (0, 1, 2, 0)
    assert grouping == bytes([0, 2, 0xAA])


def reassigned(count_unmet, reassign):
    grouping = bytearray([7, 8, 9, 0xAA])
    assert count_unmet(C, bytes(grouping)) == (0, 1, 0, 0)
    assert count_unmet(C, bytes(grouping[:2])) == (8, 3, 0, 0)
    for lot in (0, 4, 257, 65537, 2**32 - 1):
        assert reassign(C, grouping, 9, lot, 7) == (21, lot, 0, 0)
    for count in (0, 3, 257, 65537, 2**32 - 1):
        assert reassign(C, grouping, count, 3, 7) == (22, count, 0, 0)
    assert reassign(C, bytearray([7, 8]), 9, 0, 7) == (8, 3, 0, 0)
    assert reassign(C[:33], grouping, 1, 3, 7) == (3, 0, 0, 0)
    assert grouping == bytes([7, 8, 9, 0xAA])
    assert reassign(C, grouping, 1, 3, 7) == (0, 0, 0, 0)
    assert grouping == bytes([7, 8, 7, 0xAA])
    assert reassign(C, grouping, 0, 2, 7) == (0, 1, 0, 0)
    assert reassign(C, grouping, 1, 1, 255) == (0, 1, 0, 0)
    assert grouping == bytes([255, 7, 7, 0xAA])
    assert count_unmet(C, bytes(grouping)) == (0, 1, 0, 0)


def main():
    library = ctypes.CDLL(sys.argv[1])
    read, evaluate = service(library, "lihumbay_read", 1), service(library, "lihumbay_evaluate", 2)
    search, check = service(library, "lihumbay_search", 3), service(library, "lihumbay_check", 2)
    sheet_c(read, search, evaluate)
    store_full(search)
    sheet_a(search, check)
    repack = service(library, "lihumbay_repack", 2)
    reordered(repack)
    withdrawn(read, search, evaluate, check, repack)
    merge = service(library, "lihumbay_merge", 3)
    merged(merge)
    merged_withdrawn(merge)
    zero_lot(read, search, evaluate, check)
    search_limited, check_limited = service(library, "lihumbay_search_limited", 3, limited=True), service(library, "lihumbay_check_limited", 2, limited=True)
    limited(search_limited, check_limited, check)
    count_unmet = service(library, "lihumbay_count_unmet", 2)
    reassigned(count_unmet, service(library, "lihumbay_reassign", 2, numbers=(ctypes.c_uint32, ctypes.c_uint32, ctypes.c_uint8)))
    print("calls from Python: ok")


main()
