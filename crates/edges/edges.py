#!/usr/bin/env python3
"""Writes `stdin` and `stdout` of the program edges.

Each edge below is its words, a case, the answer that documents 01 and 02 give to it, and the store and the worklist that it leaves where
these aren't the ones that were given (None stands for the store that was given); written by hand from the documents and not from any
program. The sections follow the questions. Behind the answer of an opening the parts that it hands out are printed; behind that of a call
that is given a store, or of a list of calls, its bytes, and behind them the ids on the worklist, each with its mark. Where a search ends
(W-204) is tried at every place: those edges are made from tables, which have the results by hand.
"""
import os
import struct

CHECK, OPEN, CREATE, ARRIVAL, RETRY, TURN, CRASH, RESTART = range(8)
FIGURES, ORDER = 8, 9
# W-208: FINISH is the call done, which DONE, an answer, is not
ADD, TAKE, FINISH = 10, 11, 12
# W-209; 14 is no call
RETIRE, REPLY = 13, 15
RETURN = (0xB0, 0)
SET = (0x00, 0)
COPY = (0x10, 0)
BEGIN = (0x60, 0)
END = (0x70, 0)
PUT = (0x91, 2)  # the value at register 1's key becomes register 2
FLOOR_KEY = 2**40  # W-209: the floor row's, in the book


def pack(*workflows, sizes=None, more=b""):
    """The bytes of a pack; a workflow is a list of (operation byte, operand word)."""
    code = [i for w in workflows for i in w]
    head = bytes([len(workflows)]) + b"".join(struct.pack("<H", n) for n in sizes or map(len, workflows))
    return head + bytes(b for b, _ in code) + b"".join(struct.pack("<I", w) for _, w in code) + more


def store(P=1, C=5, rows=(), book=(), used=None, more=b"", as_written=False, floor=None):
    """The bytes of a store: rows are (partition, stored key, value), book has (id, workflow, arguments); a floor has its row in the book.
    The rows of a partition stand by rising key, or as they are written."""
    parts = [[] for _ in range(P + 1)]
    for p, k, v in rows:
        parts[p].append((k, v))
    for id, workflow, arguments in book:
        parts[P] += [(8 * id + j, v) for j, v in enumerate([workflow, *arguments])]
    if floor is not None:
        parts[P].append((FLOOR_KEY, floor))
    if not as_written:
        for p in parts:
            p.sort(key=lambda row: row[0])
    counts = [len(p) for p in parts]
    for p, n in (used or {}).items():
        counts[p] = n
    full = [p + [(0, 0)] * (C - len(p)) for p in parts]
    keys = b"".join(struct.pack("<Q", k) for p in full for k, _ in p)
    values = b"".join(struct.pack("<I", v) for p in full for _, v in p)
    return struct.pack("<BH", P, C) + b"".join(struct.pack("<H", n) for n in counts) + keys + values + more


def written(P=1, C=5, rows=(), book=(), used=None, more=b"", floor=None):
    """The same with the rows as they are written here."""
    return store(P, C, rows, book, used, more, True, floor)


def agent(id, position=0, step=0, registers=(), in_use=1):
    return [in_use, id, position, step, *registers] + [0] * (8 - len(registers))


class Case:
    """The bytes of a case; the store whose bytes are printed behind its answer, if there is one, and the worklist behind them."""

    def __init__(self, bytes, store=None, listed=()):
        self.bytes, self.store, self.listed = bytes, store, listed


def records(slots):
    """The bytes of the eight records; slots are {number: record}, every other slot is empty."""
    return b"".join(struct.pack("<12I", *(slots or {}).get(i, [0] * 12)) for i in range(8))


def one_call(code, words):
    return bytes([code]) + struct.pack("<7I", *words, *[0] * (7 - len(words)))


def with_list(kind, pack, store, listed):
    """What a case begins with that has a worklist, of ids and marks."""
    head = struct.pack("<BIIB", kind, len(pack), len(store), len(listed)) + pack + store
    return head + b"".join(struct.pack("<IB", id, mark) for id, mark in listed)


def call(code, words=(), pack=b"", store=b"", slots=None, listed=None):
    """A call; it may be lent a worklist."""
    head = struct.pack("<BII", 1, len(pack), len(store)) + pack + store if listed is None else with_list(2, pack, store, listed)
    return Case(head + records(slots) + one_call(code, words), None if code in (CHECK, OPEN, FIGURES, REPLY) else store, listed or ())


def calls(pack, store, made, slots=None, listed=()):
    """A list of calls, each given what the one before left; each one is a call and its words."""
    head = with_list(3, pack, store, listed) + records(slots) + bytes([len(made)])
    return Case(head + b"".join(one_call(code, words) for code, words in made), store, listed)


def schedule(pack, P, C, requests, kinds, indexes=None, more=b""):
    events = bytes(kinds)
    which = bytes(indexes if indexes is not None else [0] * len(kinds))
    s = struct.pack("<BHBH", P, C, len(requests), len(events)) + b"".join(struct.pack("<6I", *r) for r in requests) + events + which + more
    return Case(struct.pack("<BII", 0, len(pack), len(s)) + pack + s)


def check(p):
    return call(CHECK, pack=p)


def opens(workflow, p):
    return call(OPEN, [workflow], p)


def figures(*code):
    """The figures of a pack's only workflow."""
    return call(FIGURES, [0], pack(code))


def takes(turns, *rows):
    """The most turns, and the most rows of partition 0 to 7, of which those behind the last that is given are 0."""
    return "answer figures %s\n" % " ".join(map(str, [turns, *rows, *[0] * (8 - len(rows))]))


def parts(*code):
    """The parts that an opening hands out, of the workflow that it opened; of none where it is refused."""
    operations = bytes(b for b, _ in code)
    operands = b"".join(struct.pack("<I", w) for _, w in code)
    return "ops %s\noperands %s\n" % (operations.hex() or "-", operands.hex() or "-")


def data(k):
    return 2**63 + k


def log(id, step):
    return id * 65536 + step


ONE = pack([RETURN])
MOVING = [(0x14, 0), (0x60, 0), (0x85, 4), (0x35, 2), (0x94, 5), (0x75, 0),
          (0x60, 1), (0x85, 1), (0x25, 2), (0x91, 5), (0x75, 0), (0xB0, 0)]
MOVE = pack(MOVING)
SEVEN = [7, 0, 100, 200, 30, 0]
# a PUT of register 1 at register 0's key; then, in another block, PUTs of registers 2 and 3 at the keys in registers 1 and 2
FIVE = [BEGIN, (0x90, 1), END, BEGIN, PUT, (0x92, 3), END, RETURN]
EIGHT = [8, 0, 100, 200, 30, 0]
BOOKED = [(7, 0, [100, 200, 30, 0])]
# what a runtime before W-201 could book
ZERO = [(0, 0, [100, 200, 30, 0])]
# two PUTs to one key, register 1's
TWICE = pack([BEGIN, PUT, PUT, END, RETURN])
AT_TWICE = {0: agent(7, registers=[100, 200, 30, 0])}
# another request for the book, and the rows of request 7 with j = 4 ahead of j = 3
NEXT = (8, 0, [1, 2, 3, 4])
FALLING = [(1, 56, 0), (1, 57, 100), (1, 58, 200), (1, 60, 0), (1, 59, 30)]
# PUTs of register 4 at the keys in registers 0, 3, 1 and 2; the result is register 1's
FOUR = pack([BEGIN, (0x90, 4), (0x93, 4), (0x91, 4), (0x92, 4), (0x71, 0), RETURN])
AT_FOUR = {0: agent(7, registers=[10, 20, 30, 40, 7])}
# what MOVE leaves behind the reply to request 7, with 5 rows
MOVED_SEVEN = store(2, 5, [(0, log(7, 0), 2**32 - 30), (0, data(100), 2**32 - 30), (1, log(7, 1), 30), (1, data(200), 30)], BOOKED)
# a PUT of argument 1 at the key in argument 0, and what requests 7 and 8 of it leave
KEPT = pack([BEGIN, (0x90, 1), END, RETURN])
BOTH = store(1, 10, [(0, log(7, 0), 100), (0, log(8, 0), 50), (0, data(50), 2), (0, data(100), 1)],
             [(7, 0, [100, 1, 0, 0]), (8, 0, [50, 2, 0, 0])])


def asked(s):
    """The calls that put 11: an arrival and a retry of request 7, a turn and a crash of its agent in slot 0."""
    made = [(ARRIVAL, [1, *SEVEN]), (RETRY, [2, 7]), (TURN, [0]), (CRASH, [0])]
    return calls(ONE, s, made, {0: agent(7, registers=[42])})


def order(s):
    return call(ORDER, store=s)


def like(id):
    """A request with the arguments of request 7."""
    return (id, 0, [100, 200, 30, 0])


def arrives(id, *booked):
    """A new id, where others are booked and five rows are free."""
    return call(ARRIVAL, [0, id, 0, 100, 200, 30, 0], ONE, store(1, 5 * len(booked) + 5, book=map(like, booked)))


def turn(p=ONE, s=None, slots=None, slot=0):
    return call(TURN, [slot], p, store() if s is None else s, slots)


def three_booked(*workflows):
    """A full book of three ids, behind two partitions with rows. Its arguments are numbers that ONE has no workflow of."""
    rows = [(0, data(1), 5), (1, log(9, 0), 6), (1, data(2), 7)]
    return store(2, 15, rows, [(7 + i, workflow, [1, 2, 3, 4]) for i, workflow in enumerate(workflows)])


def reading(*block, s=None, end=5):
    """Request 7 up to its reply: register 5 becomes 9, then a block in partition 0 whose result is register `end`'s. Before it registers
    0 to 3 are 100, 200, 30, 0."""
    p = pack([NINE, BEGIN, *block, (0x70 | end, 0), RETURN])
    return calls(p, store(1, 5, book=BOOKED) if s is None else s, [(RETRY, [0, 7])] + [(TURN, [0])] * 3)


def replies(value):
    return DONE + MOVED * 2 + "answer reply 7 %d\n" % value


def logged(value, *rows, P=1, C=5, book=None):
    """The store of `reading` behind the reply: the block's result in its log row, and other rows."""
    return store(P, C, [(0, log(7, 0), value), *rows], book or BOOKED)


def refused(n, workflow=0, instruction=0):
    return "answer refused %d %d %d\n" % (n, workflow, instruction)


DONE, MOVED, NOT_YET = "answer done\n", "answer moved\n", "answer not yet\n"
NINE = (0x05, 9)  # register 5 becomes 9
GET = (0x85, 0)  # the value at register 0's key, to register 5

# W-204: GET and HAS of register 0's key in partition 1, where register 5 holds 9: the result is the value and 1, or 9 where the key is
# absent
BOTH_READ = pack([(0x60, 1), (0x85, 0), (0xA6, 0), (0x25, 6), (0x75, 0), RETURN])
# the rows of a partition by key; the log row of id 7, step 0 belongs between the first two
SEVEN_ROWS = {log(6, 0): 1, log(7, 1): 2, log(8, 0): 3, data(10): 40, data(20): 50, data(30): 60, data(40): 70}
# C, the rows, and each key that is sought there with the result, or none where 21 says no for want of a row for the log
READ = [
    (8, SEVEN_ROWS, [
        ("just below the first data key", 9, 9), ("the first data key", 10, 41), ("between two keys", 15, 9), ("the second", 20, 51),
        ("the third", 30, 61), ("just below the last", 39, 9), ("the last", 40, 71), ("just behind the last", 41, 9)]),
    (5, {log(2**32 - 1, 65535): 1, data(0): 40, data(2**32 - 1): 50}, [
        ("the least, behind the greatest log key", 0, 41), ("just behind the least", 1, 9), ("just below the greatest", 2**32 - 2, 9),
        ("the greatest", 2**32 - 1, 51)]),
    (5, {log(6, 0): 1, log(8, 0): 2}, [("log rows alone", 0, 9)]),
    (5, {data(10): 40, data(20): 50}, [("ahead of every row", 0, 9)]),
    (5, {}, [("an empty partition", 0, 9)]),
    (5, {log(6, 0): 1, log(8, 0): 2, data(10): 40, data(20): 50, data(30): 60}, [
        ("it is there, in a full partition", 20, None), ("it is not there, in a full partition", 15, None)]),
]
# 248 of 256 rows, and requests whose log rows fill the others: id, the key that its block reads, the result
LARGE = {**{log(100 + i, i): i for i in range(100)}, **{data(10 * i): 1000 + i for i in range(1, 149)}}
READERS = [(1, 0, 9), (2, 9, 9), (3, 10, 1002), (150, 745, 9), (151, 750, 1076), (199, 1480, 1149), (200, 1481, 9),
           (2**32 - 1, 2**32 - 1, 9)]
# 16 PUTs of register 4 at register 7's key, to which register 6 is added behind each; the result is register 0's
SIXTEEN = pack([BEGIN, *[(0x97, 4), (0x27, 6)] * 16, END, RETURN])
# at position 1, where an agent may have step 1, a block that PUTs register 2 at register 1's key; its result is register 2's
STEP_1 = pack([SET, BEGIN, PUT, (0x72, 0), RETURN])
# the log keys around that of id 7, step 1: the same id with a step more or less, the same step with an id more or less
AHEAD = [log(5, 1), log(6, 1), log(6, 65535), log(7, 0)]
BEHIND = [log(7, 2), log(8, 0), log(8, 1), log(9, 1)]
# three requests of three workflows with 3, 2 and 1 instructions; and what a new id arrives with
TALL = pack([SET, SET, RETURN], [SET, RETURN], [RETURN])
THREE = [(3, 0, [1, 20, 300, 4000]), (5, 1, [2, 30, 400, 5000]), (7, 2, [3, 40, 500, 6000])]
NEW = [0, 100, 200, 30, 0]
# a block whose result is register 0 and 2, 4, 8 times registers 1, 2, 3: which argument is in which register shows
WEIGHED = pack(*[[BEGIN, (0x23, 3), (0x22, 3), (0x22, 2), (0x21, 2), (0x21, 1), (0x20, 1), END, RETURN]] * 3)


def in_part(p, rows):
    """Rows by key, as rows of a partition."""
    return [(p, k, v) for k, v in rows.items()]


def reads(C, rows, words, key, result):
    """A block of request 7 reads a key of partition 1; partition 0 has this key too, with another value."""
    given = [(0, data(key), 80)] + in_part(1, rows)
    case = turn(BOTH_READ, store(2, C, given, BOOKED), {0: agent(7, registers=[key, 0, 0, 0, 0, 9])})
    words = "GET and HAS of key %d: %s" % (key, words)
    if result is None:
        return (words, case, refused(21))
    return (words, case, MOVED, store(2, C, given + [(1, log(7, 0), result)], BOOKED))


def reads_in_256():
    """Eight blocks read, one in each slot, and fill the partition with their log rows; they reply, and a ninth finds no row."""
    rows, book = in_part(1, LARGE), [(id, 0, [0] * 4) for id in [9, *[id for id, _, _ in READERS]]]
    slots = {i: agent(id, registers=[key, 0, 0, 0, 0, 9]) for i, (id, key, _) in enumerate(READERS)}
    made = [(TURN, [i]) for i in range(8)] * 2 + [(RETRY, [0, 9]), (TURN, [0])]
    answers = MOVED * 8 + "".join("answer reply %d %d\n" % (id, result) for id, _, result in READERS) + DONE + refused(21)
    return ("eight blocks read in a partition of 256 rows, a ninth finds it full",
            calls(BOTH_READ, store(2, 256, rows, book), made, slots), answers,
            store(2, 256, rows + [(1, log(id, 0), result) for id, _, result in READERS], book))


def writes(words, p, registers, rows, new):
    """A block of request 7 that leaves `new` over `rows`, both by key: with just enough rows, and with one too few."""
    after, slots = {**rows, **new}, {0: agent(7, registers=registers)}
    C = len(after)
    return [(words + ", just enough rows", turn(p, store(1, C, in_part(0, rows), BOOKED), slots), MOVED,
             store(1, C, in_part(0, after), BOOKED)),
            (words + ", one row too few", turn(p, store(1, C - 1, in_part(0, rows), BOOKED), slots), refused(21))]


def writes_one(words, key):
    """PUT of 99 at one key over the seven rows; the result is the key."""
    return writes("PUT at key %d, %s" % (key, words), KEPT, [key, 99], SEVEN_ROWS, {log(7, 0): key, data(key): 99})


def writes_four(words, there, others):
    """PUTs of 7 at keys 10, 20, 30 and 40, some of which are there; the result is 20."""
    keys = [10, 20, 30, 40]
    rows = {**dict.fromkeys(others, 1), **{data(k): k for k in there}}
    return writes("PUTs at four keys, " + words, FOUR, [*keys, 7], rows, {log(7, 0): 20, **{data(k): 7 for k in keys}})


def seeks_log(ahead, found):
    """The log row of id 7, step 1 is sought among four others, so many of them smaller. Found, it is the result, though the partition is
    full and key 200 would be PUT anew; else the block runs, and log row and data row fill the partition."""
    others = dict.fromkeys(AHEAD[4 - ahead:] + BEHIND[:4 - ahead], 1)
    given = in_part(0, {**others, **({log(7, 1): 77, data(200): 5} if found else {})})
    after = given if found else in_part(0, {**others, log(7, 1): 30, data(200): 30})
    slots = {0: agent(7, 1, 1, [100, 200, 30])}
    return ("a log row %s, %d log rows ahead of its place" % ("that is there" if found else "that is not there", ahead),
            calls(STEP_1, store(1, 6, given, BOOKED), [(TURN, [0])] * 2, slots),
            MOVED + "answer reply 7 %d\n" % (77 if found else 30), store(1, 6, after, BOOKED))


def seeks_id(id, rows):
    """The first block of an id, over rows by key: register 2 is PUT at register 0's key, 1; the result is that key."""
    given = in_part(0, rows)
    return (turn(pack([BEGIN, (0x90, 2), END, RETURN]), store(1, 5, given, [like(id)]), {0: agent(id, registers=[1, 0, 30])}), MOVED,
            store(1, 5, given + [(0, log(id, 0), 1), (0, data(1), 30)], [like(id)]))


def new_id(id, C):
    """An id that is not booked arrives where 3, 5 and 7 are."""
    return call(ARRIVAL, [0, id, *NEW], TALL, store(1, C, book=THREE))


def known(id, workflow, arguments):
    """A booked id arrives in a full book with each word changed in turn, the workflow to another of the three; then as it is booked."""
    booked = [workflow, *arguments]
    changed = [[(w + 1) % 3 if i == j == 0 else w + (i == j) for i, w in enumerate(booked)] for j in range(5)]
    return ("booked id %d of a full book, each word changed in turn, then the same" % id,
            calls(TALL, store(1, 15, book=THREE), [(ARRIVAL, [0, id, *rest]) for rest in [*changed, booked]]), refused(18) * 5 + DONE)


def no_record(i):
    """Words in slot i that make no record: an arrival there, and turns of an agent that would be sound if its number were cut."""
    booked = store(book=BOOKED)
    return [("in use 2 in slot %d" % i, call(ARRIVAL, [i, 8, 0], ONE, store(), {i: agent(0, in_use=2)}), refused(14)),
            ("position 65,536 in slot %d" % i, turn(ONE, booked, {i: agent(7, 65536)}, i), refused(14)),
            ("step 65,536 in slot %d" % i, turn(ONE, booked, {i: agent(7, 0, 65536)}, i), refused(14))]


# W-208: the worklist
def waits(*ids):
    """Ids that are listed as waiting, in order of entry."""
    return [(id, 0) for id in ids]


def taken(*ids):
    """Ids that are listed as taken."""
    return [(id, 1) for id in ids]


SEVEN_BOOKED = store(book=BOOKED)
# fifteen and sixteen ids that no book here has
FIFTEEN_IDS = list(range(21, 36))
SIXTEEN_IDS = FIFTEEN_IDS + [36]
# request 7 of KEPT, booked and logged: the result is argument 0
KEPT_SEVEN = store(1, 5, [(0, log(7, 0), 100), (0, data(100), 200)], BOOKED)
# request 7 of MOVE, logged so far: its first block
HALF_MOVED = store(2, 5, [(0, log(7, 0), 2**32 - 30), (0, data(100), 2**32 - 30)], BOOKED)
# a block, then another one, over which a jump goes if the first one's result is argument 1, or below it
UNLESS_EQUAL = pack([BEGIN, END, (0x50, 16 * 5 + 1), BEGIN, END, RETURN])
UNLESS_BELOW = pack([BEGIN, END, (0x40, 16 * 5 + 1), BEGIN, END, RETURN])
# a jump that always goes, over the first of two blocks
OVER = pack([(0x50, 16 * 3), BEGIN, END, BEGIN, END, RETURN])
# argument 2 is added 255 times to argument 1, which is the reply
LONG = pack([(0x21, 2)] * 255 + [(0xB1, 0)])
# a block in each of eight partitions
EIGHT_BLOCKS = pack([i for p in range(8) for i in ((0x60, p), END)] + [RETURN])
# what log rows there are where request 7 of MOVE isn't logged through: (partition, id, step)
NOT_THROUGH = [
    ("no block", []), ("the second block alone", [(1, 7, 1)]), ("both steps in partition 0", [(0, 7, 0), (0, 7, 1)]),
    ("both steps in partition 1", [(1, 7, 0), (1, 7, 1)]), ("each step in the other's partition", [(0, 7, 1), (1, 7, 0)]),
    ("step 0 in both partitions", [(0, 7, 0), (1, 7, 0)]), ("step 1 in both partitions", [(0, 7, 1), (1, 7, 1)]),
    ("steps 0 and 2", [(0, 7, 0), (1, 7, 2)]), ("both steps of ids 6 and 8", [(0, 6, 0), (0, 8, 0), (1, 6, 1), (1, 8, 1)]),
]
# lists that 25 says no to
BAD_LISTS = [
    ("17 ids", taken(7) + waits(*SIXTEEN_IDS)), ("255 ids", taken(7) + waits(*range(1000, 1254))),
    ("one id twice, side by side", taken(7, 7)), ("one id twice, taken and waiting, another between", taken(7) + waits(8, 7)),
    ("the first and the last of 16 are one id", taken(7) + waits(*FIFTEEN_IDS[1:], 7)), ("id 0 twice", taken(7) + waits(0, 0)),
    ("mark 2 in the first", [(8, 2)] + taken(7)), ("mark 2 between two others", taken(7) + [(8, 2)] + waits(9)),
    ("mark 255 in the last of 16", taken(7) + waits(*FIFTEEN_IDS[1:]) + [(36, 255)]),
]
# a list with a mark of 2, and what says no to it before 25 does: the question with its place, pack, store and slots
MARK_2 = [(7, 2)]
BEFORE_25 = [
    ((1,), b"", SEVEN_BOOKED, None), ((2,), b"\1", SEVEN_BOOKED, None), ((3,), pack([RETURN], more=b"\0"), SEVEN_BOOKED, None),
    ((4, 1, 1), pack([RETURN], [SET, (0xC0, 0), RETURN]), SEVEN_BOOKED, None),
    ((5, 0, 1), pack([COPY, (0x50, 16 * 1), RETURN]), SEVEN_BOOKED, None), ((6, 0, 1), pack([BEGIN, RETURN]), SEVEN_BOOKED, None),
    ((7, 0, 17), pack([BEGIN] + [PUT] * 17 + [END, RETURN]), SEVEN_BOOKED, None),
    ((8, 1, 1), pack([RETURN], [RETURN, SET]), SEVEN_BOOKED, None), ((9,), ONE, b"\1\5", None), ((10,), ONE, store(more=b"\0"), None),
    ((11,), ONE, written(1, 5, [(0, data(2), 1), (0, data(1), 2)], BOOKED), None),
    ((12,), ONE, store(1, 5, [(1, 8 * 7 + j, 0) for j in range(4)]), None), ((13,), ONE, store(book=[(7, 1, [0] * 4)]), None),
    ((14,), ONE, SEVEN_BOOKED, {3: agent(8)}),
]


def add(listed, id=7, p=ONE, s=SEVEN_BOOKED, slots=None):
    """An id is put on a worklist."""
    return call(ADD, [id], p, s, slots, listed)


def take(listed, p=ONE, s=SEVEN_BOOKED, slots=None):
    """A worker asks for the first id that waits."""
    return call(TAKE, (), p, s, slots, listed)


def finish(listed, id=7, p=ONE, s=SEVEN_BOOKED, slots=None):
    """The call done of an id."""
    return call(FINISH, [id], p, s, slots, listed)


def reply(p=ONE, s=SEVEN_BOOKED, id=7, slots=None):
    """The reading call: the reply worked out from the log."""
    return call(REPLY, [id], p, s, slots)


def gives(id):
    """The answer of a take."""
    return "answer taken %d\n" % id


def value_of(id, value):
    """The answer of a turn at RETURN, and of the reading call."""
    return "answer reply %d %d\n" % (id, value)


def kept(value, *rows):
    """A store in which request 7 of KEPT, or of another workflow with one block in partition 0, has logged a result; and other rows."""
    return store(1, 5, [(0, log(7, 0), value), *rows], BOOKED)


def not_through(words, rows):
    """Request 7 of MOVE is listed as taken, and such log rows are there: done is turned down."""
    s = store(2, 5, [(p, log(id, step), 30) for p, id, step in rows], BOOKED)
    return ("done: MOVE with log rows of %s" % words, finish(taken(7), p=MOVE, s=s), refused(27))


def eight_logged(blocks):
    """The first blocks of EIGHT_BLOCKS are logged, that of step t with result t + 1."""
    return store(8, 5, [(t, log(7, t), t + 1) for t in range(blocks)], BOOKED)


def bad_list(words, listed):
    """Each call that puts 25 says no, before a restart and after it; the restart doesn't touch the list."""
    made = [(ADD, [7]), (TAKE, []), (FINISH, [7]), (RETIRE, [8])]
    return ("25, and a restart leaves the list as it was: %s" % words,
            calls(ONE, SEVEN_BOOKED, [*made, (RESTART, []), *made], listed=listed), refused(25) * 4 + DONE + refused(25) * 4)


def before_25(no, p, s, slots):
    """Add, take, done and retire say no to something else before 25."""
    return ("%d is asked before 25: add, take, done and retire" % no[0],
            calls(p, s, [(ADD, [8]), (TAKE, []), (FINISH, [8]), (RETIRE, [8])], slots, MARK_2), refused(*no) * 4)


# W-209: retiring
TWO = [like(7), like(8)]
# the floor row alone, and with a booked id at the floor and below it
FLOOR_8 = store(floor=8)
AT_FLOOR = store(1, 6, book=BOOKED, floor=7)
BELOW_FLOOR = store(1, 6, book=BOOKED, floor=8)
# a workflow without blocks and one with a block
SOME_BLOCK = pack([RETURN], [BEGIN, END, RETURN])
# log rows of ids around 8, booked or not, and data rows, in three partitions; retired below 8, partition 1 stays as it is
KEPT_ROWS = [(0, log(8, 0), 4), (0, data(0), 5), (0, data(7 * 65536), 6), (1, log(8, 0), 7), (1, data(1), 8), (2, data(2**32 - 1), 11)]
GOING_ROWS = [(0, log(3, 9), 1), (0, log(7, 0), 2), (0, log(7, 65535), 3), (2, log(0, 0), 9), (2, log(6, 65535), 10)]
# ids 255 to 2^24, each greater than the one before in a higher byte
BYTEWISE = [255, 256, 65535, 65536]
# a full partition of which request 8 finds two rows free once 7 is retired
EIGHT_DATA = [(0, data(k), k) for k in range(8)]


def retire(floor=8, listed=(), p=ONE, s=SEVEN_BOOKED, slots=None):
    """The requests below a floor are retired."""
    return call(RETIRE, [floor], p, s, slots, listed)


def arrives_at(id, floor, workflow=0, C=6, slots=None):
    """An id arrives where the book has the floor row alone."""
    return call(ARRIVAL, [0, id, workflow], ONE, store(1, C, floor=floor), slots)


def empty_request(id):
    """A request of workflow 0 whose arguments are 0."""
    return (id, 0, [0] * 4)


def three_workflows(*workflows):
    """Requests 3, 5 and 7 of SOME_BLOCK, none of whose blocks is logged."""
    return store(1, 15, book=[(3 + 2 * i, workflow, [1, 2, 3, 4]) for i, workflow in enumerate(workflows)])


def retire_three(floor, left):
    """Requests 3, 5 and 7, all logged through, below a floor; those that are left."""
    return ("retire: floor %d where 3, 5 and 7 are booked" % floor, retire(floor, p=TALL, s=store(1, 15, book=THREE)), DONE,
            store(1, 15, book=left, floor=floor))


def retire_not_through(words, rows):
    """Request 7 of MOVE with such log rows."""
    s = store(2, 5, [(p, log(id, step), 30) for p, id, step in rows], BOOKED)
    return ("28: MOVE with log rows of %s" % words, retire(p=MOVE, s=s), refused(28))


def one_after_the_other(*ids):
    """In a book of six rows each request arrives, runs up to its reply and is retired."""
    made = [c for id in ids for c in [(ARRIVAL, [0, id, 0, 100, id, 0, 0]), (TURN, [0]), (TURN, [0]), (RETIRE, [id + 1])]]
    return ("%d requests one after the other in a book of six rows, each retired behind its reply" % len(ids),
            calls(KEPT, store(1, 6), made), "".join(DONE + MOVED + value_of(id, 100) + DONE for id in ids),
            store(1, 6, [(0, data(100), ids[-1])], floor=ids[-1] + 1))


def filled_again():
    """A book of 51 requests and 256 rows is retired whole and filled with 51 others; the next finds no rows."""
    made = [(RETIRE, [52])] + [c for id in range(52, 103) for c in [(ARRIVAL, [0, id, 0]), (TURN, [0])]] + [(ARRIVAL, [0, 103, 0])]
    return ("51 requests in a book of 256 rows, retired whole, then 51 others and no more",
            calls(ONE, store(1, 256, book=map(empty_request, range(1, 52))), made),
            DONE + "".join(DONE + value_of(id, 0) for id in range(52, 103)) + refused(19),
            store(1, 256, book=map(empty_request, range(52, 103)), floor=52))


EDGES = [
    ("the whole case", schedule(MOVE, 2, 5, [SEVEN, EIGHT], [0x00, 0x10, 0x10, 0x20, 0x31, 0x11, 0x11, 0x11, 0x11, 0x01], [0] * 9 + [1]), """\
events 10
0 done
1 moved
2 moved
3 done
4 done
5 moved
6 moved
7 moved
8 reply 7 30
9 refused 19
row 0 100 4294967266
log 0 7 0 4294967266
row 1 200 30
log 1 7 1 30
"""),
    ("the whole case cut behind its first block", calls(MOVE, store(2, 5), [(ARRIVAL, [0, *SEVEN]), (TURN, [0]), (TURN, [0])]), DONE + MOVED * 2,
     store(2, 5, [(0, log(7, 0), 4294967266), (0, data(100), 4294967266)], [(7, 0, [100, 200, 30, 0])])),
    ("size 256", check(pack([SET] * 255 + [RETURN])), DONE),
    ("size 257", check(pack([SET] * 256 + [RETURN])), refused(2)),
    ("16 PUTs in a block", check(pack([BEGIN] + [PUT] * 16 + [END, RETURN])), DONE),
    ("17 PUTs in a block", check(pack([BEGIN] + [PUT] * 17 + [END, RETURN])), refused(7, 0, 17)),
    ("id 7 again, the same", schedule(MOVE, 2, 5, [SEVEN], [0x00, 0x01], [0, 0]), "events 2\n0 done\n1 done\n"),
    ("id 7 again with amount 31", schedule(MOVE, 2, 5, [SEVEN, [7, 0, 100, 200, 31, 0]], [0x00, 0x01], [0, 1]), "events 2\n0 done\n1 refused 18\n"),
    ("two PUTs to one new key, one row free", turn(TWICE, store(1, 5, [(0, data(k), 1) for k in range(4)], BOOKED), AT_TWICE), refused(21)),
    ("two PUTs to one new key, two rows free", turn(TWICE, store(1, 5, [(0, data(k), 1) for k in range(3)], BOOKED), AT_TWICE), MOVED,
     store(1, 5, [(0, log(7, 0), 100), (0, data(0), 1), (0, data(1), 1), (0, data(2), 1), (0, data(200), 30)], BOOKED)),
    ("two PUTs to a key that is there, one row free",
     turn(TWICE, store(1, 5, [(0, data(200 + k), 1) for k in range(4)], BOOKED), AT_TWICE), MOVED,
     store(1, 5, [(0, log(7, 0), 100), (0, data(200), 30), (0, data(201), 1), (0, data(202), 1), (0, data(203), 1)], BOOKED)),
    ("the block is logged, no row free", turn(TWICE, store(1, 5, [(0, data(k), 1) for k in range(4)] + [(0, log(7, 0), 1)], BOOKED), AT_TWICE), MOVED),
    # 1
    ("no bytes", check(b""), refused(1)),
    ("no workflow", check(b"\0"), refused(1)),
    ("16 workflows", check(pack(*[[RETURN]] * 16)), DONE),
    ("17 workflows", check(pack(*[[RETURN]] * 17)), refused(1)),
    # 2
    ("no size", check(b"\x01"), refused(2)),
    ("half a size", check(b"\x01\x01"), refused(2)),
    ("a size is not there", check(b"\x02\x01\0"), refused(2)),
    ("size 0", check(b"\x01\0\0"), refused(2)),
    ("size 0 behind a right one", check(pack([RETURN], [])), refused(2)),
    ("2,048 instructions", check(pack(*[[SET] * 255 + [RETURN]] * 8)), DONE),
    ("2,049 instructions", check(pack(*[[SET] * 255 + [RETURN]] * 8, [RETURN])), refused(2)),
    # 3
    ("one byte too many", check(pack([RETURN], more=b"\0")), refused(3)),
    ("one byte too few", check(ONE[:-1]), refused(3)),
    ("sizes alone", check(b"\x01\x01\0"), refused(3)),
    # one instruction, and MOVE
    ("01 01 00 B0 00 00 00 00", check(ONE), DONE),
    ("the same with 00 for B0", check(pack([SET])), refused(8)),
    ("the same with B8 for B0", check(pack([(0xB8, 0)])), refused(4)),
    ("the same with 50 for B0", check(pack([(0x50, 0)])), refused(5)),
    ("MOVE", check(MOVE), DONE),
    # 4
    ("operation C", check(pack([RETURN], [SET, (0xC0, 0), RETURN])), refused(4, 1, 1)),
    ("operation C in the one workflow", check(pack([COPY, (0xC0, 0), RETURN])), refused(4, 0, 1)),
    ("operation F", check(pack([(0xF0, 0), RETURN])), refused(4)),
    ("bit 3 set", check(pack([(0x18, 0), RETURN])), refused(4)),
    ("bit 3 set in workflow 1", check(pack([RETURN], [COPY, (0x1F, 0), RETURN])), refused(4, 1, 1)),
    # 5
    ("SET of the greatest word", check(pack([(0x07, 2**32 - 1), RETURN])), DONE),
    ("COPY from register 8", check(pack([(0x10, 8), RETURN])), refused(5)),
    ("COPY with the highest byte of its word set", check(pack([(0x10, 2**24), RETURN])), refused(5)),
    ("PUT from register 8", check(pack([BEGIN, (0x90, 8), END, RETURN])), refused(5, 0, 1)),
    ("a jump to its own place", check(pack([SET, (0x40, 16 * 1), RETURN])), refused(5, 0, 1)),
    ("JEQ to its own place", check(pack([COPY, (0x50, 16 * 1), RETURN])), refused(5, 0, 1)),
    ("a jump back", check(pack([COPY, (0x50, 16 * 0), RETURN])), refused(5, 0, 1)),
    ("a jump behind the end", check(pack([(0x40, 16 * 2), RETURN])), refused(5)),
    ("JEQ behind the end", check(pack([(0x50, 16 * 2), RETURN])), refused(5)),
    ("JEQ behind the end, where another workflow is", check(pack([(0x50, 16 * 2), RETURN], [RETURN])), refused(5)),
    ("a jump to the last", check(pack([(0x50, 16 * 1), RETURN])), DONE),
    ("a jump with register 7", check(pack([(0x40, 16 * 1 + 7), RETURN])), DONE),
    ("a jump with register 8", check(pack([(0x40, 16 * 1 + 8), RETURN])), refused(5)),
    ("BEGIN with partition 7", check(pack([(0x60, 7), END, RETURN])), DONE),
    ("BEGIN with partition 8", check(pack([(0x60, 8), END, RETURN])), refused(5)),
    ("BEGIN with d = 1", check(pack([(0x61, 0), END, RETURN])), refused(5)),
    ("END and RETURN with d = 7", check(pack([BEGIN, (0x77, 0), (0xB7, 0)])), DONE),
    ("END with w = 1", check(pack([BEGIN, (0x70, 1), RETURN])), refused(5, 0, 1)),
    ("RETURN with w = 1", check(pack([(0xB0, 1)])), refused(5)),
    # 6
    ("GET outside a block", check(pack([(0x80, 0), RETURN])), refused(6)),
    ("PUT outside a block", check(pack([(0x90, 0), RETURN])), refused(6)),
    ("HAS outside a block", check(pack([(0xA0, 0), RETURN])), refused(6)),
    ("END outside a block", check(pack([END, RETURN])), refused(6)),
    ("RETURN inside a block", check(pack([BEGIN, RETURN])), refused(6, 0, 1)),
    ("RETURN inside a block, END behind it", check(pack([BEGIN, RETURN, END, RETURN])), refused(6, 0, 1)),
    ("BEGIN inside a block", check(pack([BEGIN, BEGIN, END, RETURN])), refused(6, 0, 1)),
    ("SET, COPY, ADD, SUB and HAS inside a block",
     check(pack([BEGIN, (0x00, 1), (0x10, 1), (0x20, 1), (0x30, 1), (0xA0, 1), END, RETURN])), DONE),
    ("a jump into a block", check(pack([(0x40, 16 * 2), BEGIN, SET, END, RETURN])), refused(6)),
    ("a jump into a block, to its END", check(pack([(0x40, 16 * 2), BEGIN, END, RETURN])), refused(6)),
    ("a jump out of a block", check(pack([BEGIN, (0x40, 16 * 3), END, RETURN])), refused(6, 0, 1)),
    ("a jump out of a block into a later one", check(pack([BEGIN, (0x40, 16 * 4), END, BEGIN, COPY, END, RETURN])), refused(6, 0, 1)),
    ("a jump over a block", check(pack([(0x40, 16 * 3), BEGIN, END, RETURN])), DONE),
    ("a jump to BEGIN", check(pack([(0x40, 16 * 1), BEGIN, END, RETURN])), DONE),
    ("a jump to END", check(pack([BEGIN, (0x40, 16 * 2), END, RETURN])), DONE),
    ("a jump to END over an instruction", check(pack([BEGIN, (0x40, 16 * 3), COPY, END, RETURN])), DONE),
    ("a jump over a byte that would be BEGIN but for bit 3", check(pack([(0x40, 16 * 2), (0x68, 0), COPY, RETURN])), refused(6)),
    ("a jump over a byte that would be END but for bit 3", check(pack([BEGIN, (0x40, 16 * 3), (0x78, 0), COPY, END, RETURN])),
     refused(6, 0, 1)),
    # 7
    ("16 PUTs in each of two blocks", check(pack(([BEGIN] + [PUT] * 16 + [END]) * 2 + [RETURN])), DONE),
    # 8
    ("the last is not RETURN", check(pack([RETURN], [RETURN, SET])), refused(8, 1, 1)),
    ("the last is COPY", check(pack([RETURN, COPY])), refused(8, 0, 1)),
    ("the last is END", check(pack([BEGIN, END])), refused(8, 0, 1)),
    ("the last is BEGIN, in workflow 1", check(pack([RETURN], [COPY, BEGIN])), refused(8, 1, 1)),
    ("a block is left open", check(pack([BEGIN, SET])), refused(8, 0, 1)),
    # their order
    ("4 is asked before 5", check(pack([(0x69, 8), RETURN])), refused(4)),
    ("5 is asked before 6", check(pack([BEGIN, (0x60, 8), END, RETURN])), refused(5, 0, 1)),
    ("6 of an instruction is asked before 4 of the next", check(pack([(0x80, 0), (0xC0, 0), RETURN])), refused(6)),
    ("8 of workflow 0 is asked before 4 of workflow 1", check(pack([COPY], [(0xC0, 0)])), refused(8)),
    # 17 of an opening, and the parts that one hands out
    ("the second of two workflows is opened", opens(1, pack([RETURN], [SET, RETURN])), DONE + parts(SET, RETURN)),
    ("the third of two workflows is opened", opens(2, pack([RETURN], [SET, RETURN])), refused(17) + parts()),
    ("a workflow of a wrong pack is opened", opens(0, pack([SET])), refused(8) + parts()),
    ("MOVE is opened", opens(0, MOVE), DONE + parts(*MOVING)),
    ("the second of three workflows is opened", opens(1, pack(MOVING, [(0x01, 0x01020304), (0xB1, 0)], [RETURN])),
     DONE + parts((0x01, 0x01020304), (0xB1, 0))),
    ("the last of three workflows is opened", opens(2, pack(MOVING, [COPY, COPY, RETURN], [RETURN])), DONE + parts(RETURN)),
    ("workflow 1 of one is opened", opens(1, MOVE), refused(17) + parts()),
    ("workflow 65536 of one is opened", opens(65536, MOVE), refused(17) + parts()),
    ("workflow 2^32 - 1 of one is opened", opens(2**32 - 1, MOVE), refused(17) + parts()),
    ("workflow 0 is opened where workflow 1 is wrong", opens(0, pack([COPY, RETURN], [COPY])), refused(8, 1, 0) + parts()),
    ("workflow 5 of a wrong pack is opened", opens(5, pack([(0xB8, 0)])), refused(4) + parts()),
    ("workflow 0 of no bytes is opened", opens(0, b""), refused(1) + parts()),
    # 9 and 10
    ("create", call(CREATE, [1, 5], store=b"\xff" * 127), DONE, bytes([1, 5, 0] + [0] * 124)),
    ("create with no partition", call(CREATE, [0, 5], store=bytes(127)), refused(9)),
    ("create with 9 partitions", call(CREATE, [9, 5], store=bytes(127)), refused(9)),
    ("create with 4 rows", call(CREATE, [1, 4], store=bytes(127)), refused(9)),
    ("create with 257 rows", call(CREATE, [1, 257], store=bytes(127)), refused(9)),
    ("create with 2^32 - 1 partitions", call(CREATE, [2**32 - 1, 5], store=bytes(127)), refused(9)),
    ("create in a byte too few", call(CREATE, [1, 5], store=bytes(126)), refused(10)),
    ("create in a byte too many", call(CREATE, [1, 5], store=bytes(128)), refused(10)),
    ("a store of two bytes", turn(s=b"\x01\x05"), refused(9)),
    ("a store with no partition", turn(s=b"\0" + store()[1:]), refused(9)),
    ("a store with 4 rows", turn(s=store(1, 4)), refused(9)),
    ("a store a byte too long", turn(s=store(more=b"\0")), refused(10)),
    ("a wrong pack is said before a wrong store", turn(pack([SET]), b""), refused(8)),
    # 11
    ("a used count of 6 with 5 rows", turn(s=store(used={0: 6})), refused(11)),
    ("one key twice", turn(s=store(rows=[(0, data(1), 1), (0, data(1), 2)])), refused(11)),
    ("one key in two partitions", turn(s=store(2, rows=[(0, data(1), 1), (1, data(1), 2)])), refused(16)),
    ("an unused row that is not zero", turn(s=store(rows=[(0, data(1), 1)], used={0: 0})), refused(11)),
    ("a data key in the book", turn(s=store(rows=[(1, data(1), 1)])), refused(11)),
    ("a book key with j = 5", turn(s=store(rows=[(1, 8 * 7 + 5, 1)])), refused(11)),
    ("a log key of 49 bits", turn(s=store(rows=[(0, 2**48, 1)])), refused(11)),
    ("a data key of 33 bits", turn(s=store(rows=[(0, data(2**32), 1)])), refused(11)),
    # 11, the rising keys
    ("data rows by falling key: arrival, retry, turn and crash", asked(written(1, 5, [(0, data(2), 1), (0, data(1), 2)], BOOKED)),
     refused(11) * 4),
    ("a log row behind a data row: arrival, retry, turn and crash", asked(written(1, 5, [(0, data(1), 1), (0, log(7, 0), 2)], BOOKED)),
     refused(11) * 4),
    ("id 8 ahead of id 7 in the book: arrival, retry, turn and crash", asked(written(1, 10, book=[NEXT] + BOOKED)), refused(11) * 4),
    ("j = 4 ahead of j = 3 in the book: arrival, retry, turn and crash", asked(written(1, 5, FALLING)), refused(11) * 4),
    ("the same rows in order: arrival, retry, turn and crash", asked(store(1, 5, FALLING)),
     DONE * 2 + "answer reply 7 42\n" + refused(16)),
    ("the last two rows of a full partition exchanged", turn(s=written(1, 5, [(0, data(k), 1) for k in [0, 1, 2, 4, 3]])), refused(11)),
    ("the last partition in another order", turn(s=written(2, 5, [(1, data(1), 1), (1, data(0), 1)])), refused(11)),
    ("the greatest log key and the least data key", turn(s=written(1, 5, [(0, log(2**32 - 1, 65535), 2), (0, data(0), 1)])), refused(16)),
    ("the least data key and the greatest log key", turn(s=written(1, 5, [(0, data(0), 1), (0, log(2**32 - 1, 65535), 2)])), refused(11)),
    ("one key twice with one value, the others rising", turn(s=store(1, 5, [(0, data(k), 1) for k in [0, 1, 1, 2]])), refused(11)),
    ("one key twice in the book, the others rising", turn(s=written(1, 5, [(1, k, 0) for k in [56, 57, 58, 59, 59]])), refused(11)),
    ("a restart on rows in another order", call(RESTART, (), ONE, written(1, 5, [(0, data(2), 1), (0, data(1), 2)], BOOKED)), DONE),
    # 12
    ("a booked id with four rows", turn(s=store(rows=[(1, 8 * 7 + j, 0) for j in range(4)])), refused(12)),
    # 13
    ("a booked workflow that the pack has not", turn(s=store(book=[(7, 1, [0] * 4)])), refused(13)),
    ("of three booked workflows the first is one that the pack has not", turn(s=three_booked(1, 0, 0)), refused(13)),
    ("of three booked workflows the second is one that the pack has not", turn(s=three_booked(0, 1, 0)), refused(13)),
    ("of three booked workflows the last is one that the pack has not", turn(s=three_booked(0, 0, 1)), refused(13)),
    ("three booked workflows that the pack has", turn(s=three_booked(0, 0, 0)), refused(16)),
    ("a BEGIN of a partition that the store has not", turn(pack([(0x60, 1), END, RETURN]), store(1)), refused(13)),
    # 14
    ("a slot that is not in use and not zero", turn(s=store(book=BOOKED), slots={3: agent(0, registers=[0, 1], in_use=0)}), refused(14)),
    ("an agent whose id is not booked", turn(slots={0: agent(7)}), refused(14)),
    ("a position behind the workflow", turn(s=store(book=BOOKED), slots={0: agent(7, 1)}), refused(14)),
    ("a position inside a block", turn(TWICE, store(book=BOOKED), {0: agent(7, 1)}), refused(14)),
    ("a step above the position", turn(TWICE, store(book=BOOKED), {0: agent(7, 0, 1)}), refused(14)),
    *[edge for i in range(8) for edge in no_record(i)],
    ("position 65,536 in a slot that is not in use", call(ARRIVAL, [3, 8, 0], ONE, store(), {3: agent(0, 65536, in_use=0)}), refused(14)),
    ("step 65,536 in a slot that is not in use", call(ARRIVAL, [3, 8, 0], ONE, store(), {3: agent(0, 0, 65536, in_use=0)}), refused(14)),
    ("in use 2 in another slot", call(RETRY, [0, 7], ONE, store(book=BOOKED), {5: agent(7, in_use=2)}), refused(14)),
    ("in use 2 beside a pack that is refused", call(CRASH, [0], pack([SET]), store(), {0: agent(0, in_use=2)}), refused(8, 0, 0)),
    ("in use 2 beside a store that the pack does not fit", turn(pack([(0x60, 1), END, RETURN]), store(1), {0: agent(0, in_use=2)}), refused(13)),
    ("a restart where in use is 2", call(RESTART, (), ONE, store(), {0: agent(0, in_use=2)}), DONE),
    ("a restart of a slot with in use 2, then an arrival there", calls(
        ONE, store(), [(ARRIVAL, [0, 7, 0]), (RESTART, []), (ARRIVAL, [0, 7, 0])], {0: agent(0, in_use=2)}),
     refused(14) + DONE + DONE, store(book=[(7, 0, [0, 0, 0, 0])])),
    # 15 and 16
    ("a turn of slot 8", turn(slot=8), refused(15)),
    ("a turn of slot 2^32 - 1", turn(slot=2**32 - 1), refused(15)),
    ("a turn of an empty slot", turn(), refused(16)),
    ("a crash of an empty slot", call(CRASH, [7], ONE, store()), refused(16)),
    ("a crash of an agent", call(CRASH, [7], ONE, store(book=BOOKED), {7: agent(7)}), DONE),
    ("an arrival where an agent is", call(ARRIVAL, [0, 8, 0], ONE, store(book=BOOKED), {0: agent(7)}), refused(16)),
    ("a retry where an agent is", call(RETRY, [0, 7], ONE, store(book=BOOKED), {0: agent(7)}), refused(16)),
    # 24, between 16 and 17
    ("an arrival with id 0", call(ARRIVAL, [0, 0, 0], ONE, store()), refused(24)),
    ("an arrival with id 1", call(ARRIVAL, [0, 1, 0], ONE, store()), DONE, store(book=[(1, 0, [0] * 4)])),
    ("id 0 with workflow 9 of one", call(ARRIVAL, [0, 0, 9], ONE, store()), refused(24)),
    ("a booked id 0, the same request", call(ARRIVAL, [0, 0, 0, 100, 200, 30, 0], ONE, store(book=ZERO)), refused(24)),
    ("a booked id 0, another argument", call(ARRIVAL, [0, 0, 0, 100, 200, 31, 0], ONE, store(book=ZERO)), refused(24)),
    ("id 0, four book rows free", call(ARRIVAL, [0, 0, 0], ONE, store(1, 9, book=BOOKED)), refused(24)),
    ("id 0 where an agent is", call(ARRIVAL, [0, 0, 0], ONE, store(book=BOOKED), {0: agent(7)}), refused(16)),
    ("id 0 in slot 8", call(ARRIVAL, [8, 0, 0], ONE, store()), refused(15)),
    ("id 0 while another slot is wrong", call(ARRIVAL, [0, 0, 0], ONE, store(), {3: agent(7)}), refused(14)),
    ("a retry of a booked id 0", call(RETRY, [0, 0], ONE, store(book=ZERO)), DONE),
    ("a retry of id 0 that is not booked", call(RETRY, [0, 0], ONE, store(book=BOOKED)), refused(20)),
    ("id 0 in an older book, retried up to its reply, and again", calls(MOVE, store(2, 5, book=ZERO), [
        (RETRY, [0, 0]), (TURN, [0]), (TURN, [0]), (CRASH, [0]), (ARRIVAL, [1, 0, 0, 100, 200, 30, 0]), (RETRY, [1, 0]),
        (TURN, [1]), (TURN, [1]), (TURN, [1]), (TURN, [1]), (RETRY, [2, 0]), (TURN, [2]), (TURN, [2]), (TURN, [2]), (TURN, [2]),
    ]), DONE + MOVED + MOVED + DONE + refused(24) + (DONE + MOVED * 3 + "answer reply 0 30\n") * 2,
     store(2, 5, [(0, log(0, 0), 2**32 - 30), (0, data(100), 2**32 - 30), (1, log(0, 1), 30), (1, data(200), 30)], ZERO)),
    ("a schedule with id 0", schedule(MOVE, 2, 5, [[0, 0, 100, 200, 30, 0], SEVEN], [0x00, 0x30, 0x10, 0x00, 0x01], [0, 0, 0, 1, 0]),
     "events 5\n0 refused 24\n1 refused 20\n2 refused 16\n3 done\n4 refused 24\n"),
    # 17
    ("an arrival for workflow 1 of one", call(ARRIVAL, [0, 7, 1], ONE, store()), refused(17)),
    # 18
    ("a known id, the same request", call(ARRIVAL, [0, 7, 0, 100, 200, 30, 0], ONE, store(book=BOOKED)), DONE),
    ("a known id, another argument", call(ARRIVAL, [0, 7, 0, 100, 200, 31, 0], ONE, store(book=BOOKED)), refused(18)),
    ("a known id, another workflow", call(ARRIVAL, [0, 7, 1, 100, 200, 30, 0], pack([RETURN], [RETURN]), store(book=BOOKED)), refused(18)),
    # 19
    ("a new id, five book rows free", call(ARRIVAL, [0, 8, 0], ONE, store(1, 10, book=BOOKED)), DONE,
     store(1, 10, book=BOOKED + [(8, 0, [0] * 4)])),
    ("a new id, four book rows free", call(ARRIVAL, [0, 8, 0], ONE, store(1, 9, book=BOOKED)), refused(19)),
    # 20
    ("a retry of a booked id", call(RETRY, [0, 7], ONE, store(book=BOOKED)), DONE),
    ("a retry of an id that is not booked", call(RETRY, [0, 8], ONE, store(book=BOOKED)), refused(20)),
    # GET of an absent key
    ("an absent key, d holds 9", reading(GET), replies(9), logged(9)),
    ("an absent key behind a PUT of it", reading((0x90, 2), GET), replies(30), logged(30, (0, data(100), 30))),
    ("an absent key behind a PUT of 0 at it", reading((0x90, 3), GET), replies(0), logged(0, (0, data(100), 0))),
    ("an absent key behind a PUT of another key", reading((0x91, 2), GET), replies(9), logged(9, (0, data(200), 30))),
    ("an absent key ahead of a PUT of it", reading(GET, (0x90, 2)), replies(9), logged(9, (0, data(100), 30))),
    ("an absent key, the block has SET d to 4", reading((0x05, 4), GET), replies(4), logged(4)),
    ("an absent key, an earlier block has SET d to 4", calls(
        pack([NINE, BEGIN, (0x05, 4), (0x75, 0), BEGIN, (0x85, 1), (0x75, 0), RETURN]), store(1, 5, book=BOOKED),
        [(RETRY, [0, 7])] + [(TURN, [0])] * 4), DONE + MOVED * 3 + "answer reply 7 9\n", logged(4, (0, log(7, 1), 9))),
    ("an absent key, d is s", reading((0x80, 0), end=0), replies(100), logged(100)),
    ("a key that holds 0, d holds 9", reading(GET, s=store(1, 5, [(0, data(100), 0)], BOOKED)), replies(0), logged(0, (0, data(100), 0))),
    ("a key that holds 5, d holds 9", reading(GET, s=store(1, 5, [(0, data(100), 5)], BOOKED)), replies(5), logged(5, (0, data(100), 5))),
    ("a key that another partition has", reading(GET, s=store(2, 5, [(1, data(100), 5)], BOOKED)), replies(9),
     logged(9, (1, data(100), 5), P=2)),
    ("a log row with the key's number", reading(GET, s=store(1, 5, [(0, log(0, 100), 5)], BOOKED)), replies(9),
     logged(9, (0, log(0, 100), 5))),
    ("a book row with the key's number", reading(GET, s=store(1, 10, book=BOOKED + [(12, 0, [1, 2, 3, 5])])), replies(9),
     logged(9, C=10, book=BOOKED + [(12, 0, [1, 2, 3, 5])])),
    ("HAS of an absent key, d holds 9", reading((0xA5, 0)), replies(0), logged(0)),
    ("HAS of an absent key behind a PUT of 0 at it", reading((0x90, 3), (0xA5, 0)), replies(1), logged(1, (0, data(100), 0))),
    ("an absent key's register PUT at another key", schedule(pack([NINE, BEGIN, GET, (0x91, 5), (0x75, 0), RETURN]), 1, 5, [SEVEN],
     [0x00, 0x10, 0x10, 0x10]), "events 4\n0 done\n1 moved\n2 moved\n3 reply 7 9\nrow 0 200 9\nlog 0 7 0 9\n"),
    ("an absent key, written by another request before the retry", schedule(
        pack([NINE, BEGIN, GET, (0x75, 0), RETURN], [BEGIN, (0x90, 1), END, RETURN]), 1, 10, [SEVEN, [8, 1, 100, 200, 30, 0]],
        [0x00, 0x10, 0x10, 0x20, 0x01, 0x11, 0x30, 0x10, 0x10, 0x10], [0, 0, 0, 0, 1, 0, 0, 0, 0, 0]), """\
events 10
0 done
1 moved
2 moved
3 done
4 done
5 moved
6 done
7 moved
8 moved
9 reply 7 9
row 0 100 200
log 0 7 0 9
log 0 8 0 100
"""),
    # turns and restart
    ("a turn at RETURN", turn(s=store(book=BOOKED), slots={0: agent(7, registers=[42])}), "answer reply 7 42\n"),
    ("a restart asks nothing", call(RESTART, store=b"\xff"), DONE),
    # putting an earlier store in order
    ("order: log rows behind data rows",
     order(written(1, 5, [(0, data(9), 1), (0, log(7, 1), 2), (0, data(0), 3), (0, log(7, 0), 4)], BOOKED)), DONE,
     written(1, 5, [(0, log(7, 0), 4), (0, log(7, 1), 2), (0, data(0), 3), (0, data(9), 1)], BOOKED)),
    ("order: the greatest log key behind the least data key", order(written(1, 5, [(0, data(0), 1), (0, log(2**32 - 1, 65535), 2)])), DONE,
     written(1, 5, [(0, log(2**32 - 1, 65535), 2), (0, data(0), 1)])),
    ("order: id 8 ahead of id 7 in the book", order(written(1, 10, book=[NEXT] + BOOKED)), DONE, written(1, 10, book=BOOKED + [NEXT])),
    ("order: j = 4 ahead of j = 3 in the book", order(written(1, 5, FALLING)), DONE, written(1, 5, book=BOOKED)),
    ("order: two partitions and the book", order(written(2, 10, [
        (0, data(5), 1), (0, data(4), 2), (0, log(8, 0), 3), (1, data(1), 4), (1, log(7, 1), 5), (1, data(0), 6)], [NEXT] + BOOKED)), DONE,
     written(2, 10, [(0, log(8, 0), 3), (0, data(4), 2), (0, data(5), 1), (1, log(7, 1), 5), (1, data(0), 6), (1, data(1), 4)],
             BOOKED + [NEXT])),
    ("order: full partition and full book by falling key", order(written(1, 5, [(0, data(k), k) for k in [4, 3, 2, 1, 0]] + [
        (1, 60, 0), (1, 59, 30), (1, 58, 200), (1, 57, 100), (1, 56, 0)])), DONE,
     written(1, 5, [(0, data(k), k) for k in [0, 1, 2, 3, 4]], BOOKED)),
    ("order twice", calls(b"", written(1, 5, [(0, data(2), 1), (0, data(1), 2)]), [(ORDER, [])] * 2), DONE * 2,
     written(1, 5, [(0, data(1), 2), (0, data(2), 1)])),
    ("order: a store in order", order(store(2, 5, [(0, log(7, 0), 1), (0, data(1), 2), (1, data(0), 3)], BOOKED)), DONE),
    ("order: a fresh store", order(store()), DONE),
    ("order asks for no pack and no slot",
     call(ORDER, (), pack([SET]), written(1, 5, [(0, data(2), 1), (0, data(1), 2)]), {3: agent(9, 9, 9, in_use=0)}), DONE,
     written(1, 5, [(0, data(1), 2), (0, data(2), 1)])),
    ("order: two bytes", order(b"\x01\x05"), refused(9)),
    ("order: 4 rows, in another order", order(written(1, 4, [(0, data(2), 1), (0, data(1), 1)])), refused(9)),
    ("order: a byte too many", order(store(more=b"\0")), refused(10)),
    ("order: a byte too many, in another order", order(written(1, 5, [(0, data(2), 1), (0, data(1), 1)], more=b"\0")), refused(10)),
    ("order: a used count of 6 with 5 rows", order(store(1, 5, [(0, data(k), 1) for k in range(5)], used={0: 6})), refused(11)),
    ("order: a used count of 6 with 5 rows, in another order",
     order(written(1, 5, [(0, data(k), 1) for k in [1, 0, 2, 3, 4]], used={0: 6})), refused(11)),
    ("order: a log key of 49 bits", order(store(1, 5, [(0, log(1, 0), 1), (0, 2**48, 1)])), refused(11)),
    ("order: a log key of 49 bits, in another order", order(written(1, 5, [(0, 2**48, 1), (0, log(1, 0), 1)])), refused(11)),
    ("order: a book key with j = 5", order(store(1, 5, [(1, 8 * 7, 0), (1, 8 * 7 + 5, 1)])), refused(11)),
    ("order: a book key with j = 5, in another order", order(written(1, 5, [(1, 8 * 7 + 5, 1), (1, 8 * 7, 0)])), refused(11)),
    ("order: one key twice, side by side", order(store(1, 5, [(0, data(k), 1) for k in [0, 1, 1, 2]])), refused(11)),
    ("order: one key twice, side by side, in another order", order(written(1, 5, [(0, data(k), 1) for k in [2, 1, 1, 0]])), refused(11)),
    ("order: one key twice, apart", order(written(1, 5, [(0, data(k), k) for k in [1, 0, 2, 1]])), refused(11)),
    ("order: one key twice in the book, apart", order(written(1, 5, [(1, k, 0) for k in [57, 56, 58, 59, 57]])), refused(11)),
    ("order: an unused row that is not zero", order(store(1, 5, [(0, data(1), 1), (0, data(2), 1)], used={0: 1})), refused(11)),
    ("order: an unused row that is not zero, in another order",
     order(written(1, 5, [(0, data(2), 1), (0, data(1), 1), (0, data(0), 1)], used={0: 2})), refused(11)),
    ("order: a booked id with four rows", order(store(1, 5, [(1, 8 * 7 + j, 0) for j in [0, 1, 2, 3]])), refused(12)),
    ("order: a booked id with four rows, in another order", order(written(1, 5, [(1, 8 * 7 + j, 0) for j in [3, 1, 4, 0]])), refused(12)),
    ("order: 11 of the book is said before 12", order(written(1, 5, [(1, 8 * 7 + j, 0) for j in [3, 1, 5, 0]])), refused(11)),
    ("order between calls, with an agent in a slot", calls(MOVE, store(2, 5), [
        (ORDER, []), (ARRIVAL, [0, *SEVEN]), (ORDER, []), (TURN, [0]), (TURN, [0]), (ORDER, []), (TURN, [0]), (ORDER, []), (TURN, [0]),
        (ORDER, [])]),
     DONE * 3 + MOVED * 2 + DONE + MOVED + DONE + "answer reply 7 30\n" + DONE, MOVED_SEVEN),
    ("rows in another order: 11, put in order, retried up to the reply", calls(
        MOVE, written(2, 5, [(0, data(100), 2**32 - 30), (0, log(7, 0), 2**32 - 30)], BOOKED),
        [(RETRY, [0, 7]), (RESTART, []), (RETRY, [0, 7]), (ORDER, []), (RETRY, [0, 7])] + [(TURN, [0])] * 4),
     refused(11) + DONE + refused(11) + DONE * 2 + MOVED * 3 + "answer reply 7 30\n", MOVED_SEVEN),
    # where new rows go
    ("a block writes below, between and behind the rows of its partition, and over one", turn(FOUR, store(1, 10, [
        (0, log(6, 3), 1), (0, log(7, 1), 2), (0, log(9, 0), 3), (0, data(15), 4), (0, data(20), 5), (0, data(35), 6)], BOOKED), AT_FOUR),
     MOVED, written(1, 10, [(0, log(6, 3), 1), (0, log(7, 0), 20), (0, log(7, 1), 2), (0, log(9, 0), 3), (0, data(10), 7), (0, data(15), 4),
                            (0, data(20), 7), (0, data(30), 7), (0, data(35), 6), (0, data(40), 7)], BOOKED)),
    ("a log row below all rows", turn(FOUR, store(1, 10, [(0, log(7, 1), 1), (0, log(8, 0), 2)], BOOKED), AT_FOUR), MOVED,
     written(1, 10, [(0, log(7, 0), 20), (0, log(7, 1), 1), (0, log(8, 0), 2), (0, data(10), 7), (0, data(20), 7), (0, data(30), 7),
                     (0, data(40), 7)], BOOKED)),
    ("a log row behind the log rows and ahead of the data rows",
     turn(TWICE, store(1, 5, [(0, log(6, 9), 1), (0, data(0), 2)], BOOKED), AT_TWICE), MOVED,
     written(1, 5, [(0, log(6, 9), 1), (0, log(7, 0), 100), (0, data(0), 2), (0, data(200), 30)], BOOKED)),
    ("every row but the log row written over, and the partition full",
     turn(FOUR, store(1, 5, [(0, data(k), k) for k in [10, 20, 30, 40]], BOOKED), AT_FOUR), MOVED,
     written(1, 5, [(0, log(7, 0), 20), (0, data(10), 7), (0, data(20), 7), (0, data(30), 7), (0, data(40), 7)], BOOKED)),
    ("the same with no row for the log",
     turn(FOUR, store(1, 5, [(0, data(k), k) for k in [10, 20, 30, 40, 50]], BOOKED), AT_FOUR), refused(21)),
    ("the least and the greatest data key",
     turn(FOUR, store(1, 10, [(0, data(1), 1)], BOOKED), {0: agent(7, registers=[2**32 - 1, 0, 1, 2, 9])}), MOVED,
     written(1, 10, [(0, log(7, 0), 0), (0, data(0), 9), (0, data(1), 9), (0, data(2), 9), (0, data(2**32 - 1), 9)], BOOKED)),
    ("an arrival with an id below those booked", arrives(3, 7), DONE, written(1, 10, book=[like(3), like(7)])),
    ("an arrival with an id between those booked", arrives(8, 7, 9), DONE, written(1, 15, book=[like(7), like(8), like(9)])),
    ("an arrival with an id above those booked", arrives(2**32 - 1, 7), DONE, written(1, 10, book=[like(7), like(2**32 - 1)])),
    ("a book of 5 rows with one request", calls(ONE, store(1, 5), [(ARRIVAL, [0, *SEVEN]), (ARRIVAL, [1, 3, 0]), (ORDER, []), (TURN, [0])]),
     DONE + refused(19) + DONE + "answer reply 7 100\n", written(1, 5, book=BOOKED)),
    ("requests 7 and 8 one after the other", calls(KEPT, store(1, 10), [
        (ARRIVAL, [0, 7, 0, 100, 1, 0, 0]), (TURN, [0]), (ARRIVAL, [1, 8, 0, 50, 2, 0, 0]), (TURN, [1])]), (DONE + MOVED) * 2, BOTH),
    ("requests 8 and 7 one after the other", calls(KEPT, store(1, 10), [
        (ARRIVAL, [0, 8, 0, 50, 2, 0, 0]), (ARRIVAL, [1, 7, 0, 100, 1, 0, 0]), (TURN, [0]), (TURN, [1])]), DONE * 2 + MOVED * 2, BOTH),
    # where a search ends: GET and HAS, PUT, the log, the book, and where data keys begin in what is printed
    *(reads(C, rows, *line) for C, rows, lines in READ for line in lines),
    reads_in_256(),
    *(edge for words, key in [("the first", 10), ("the second", 20), ("the third", 30), ("the last", 40), ("new, below the others", 0),
                              ("new, between two", 25), ("new, behind the others", 2**32 - 1)] for edge in writes_one(words, key)),
    *writes_four("the first and the third there and all other rows behind", [10, 30], [data(k) for k in [50, 51, 52, 53, 54]]),
    *writes_four("the second and the last there and all other rows ahead", [20, 40], [log(5, 0), log(6, 0), data(1), data(2), data(3)]),
    *writes_four("the first there and other rows among them", [10], [log(6, 0), log(8, 0), data(5), data(25), data(45)]),
    *writes_four("the last there and other rows among them", [40], [log(6, 0), log(8, 0), data(5), data(25), data(45)]),
    *writes("16 PUTs, every second key there", SIXTEEN, [6, 0, 0, 0, 7, 0, 10, 10], {data(20 * i): i for i in range(1, 9)},
            {log(7, 0): 6, **{data(10 * i): 7 for i in range(1, 17)}}),
    *(seeks_log(ahead, found) for found in [True, False] for ahead in range(5)),
    ("the log row of the greatest id goes between the log rows and data key 0",
     *seeks_id(2**32 - 1, {log(2**32 - 2, 65535): 1, data(0): 2})),
    ("the log row of id 0, whose key is 0, among unused rows of zero", *seeks_id(0, {data(0): 2})),
    *(("id %d arrives where 3, 5 and 7 are booked, five rows free" % id, new_id(id, 20), DONE,
       store(1, 20, book=[*THREE, like(id)])) for id in [2, 4, 6, 8]),
    *(("id %d arrives where 3, 5 and 7 are booked, four rows free" % id, new_id(id, 19), refused(19)) for id in [2, 4, 6, 8]),
    ("ids 2, 4, 6 and 8 arrive in a full book", calls(TALL, store(1, 15, book=THREE), [(ARRIVAL, [0, id, *NEW]) for id in [2, 4, 6, 8]]),
     refused(19) * 4),
    *(known(*request) for request in THREE),
    ("the greatest id arrives in an empty book of five rows", call(ARRIVAL, [0, 2**32 - 1, *NEW], TALL, store()), DONE,
     store(book=[like(2**32 - 1)])),
    ("retries of ids 0, 7 and 2^32 - 1 in an empty book", calls(TALL, store(), [(RETRY, [0, id]) for id in [0, 7, 2**32 - 1]]),
     refused(20) * 3),
    ("retries of ids 2 to 8 where 3, 5 and 7 are booked, and what they were booked with", calls(
        WEIGHED, store(1, 15, book=THREE), [(RETRY, [id, id]) for id in range(2, 8)] + [(RETRY, [0, 8])]
        + [(TURN, [id]) for id in [3, 5, 7] * 2]),
     (refused(20) + DONE) * 3 + refused(20) + MOVED * 3 + "answer reply 3 33241\nanswer reply 5 41662\nanswer reply 7 50083\n",
     store(1, 15, [(0, log(3, 0), 33241), (0, log(5, 0), 41662), (0, log(7, 0), 50083)], THREE)),
    ("agents of ids 3, 5 and 7, each at the end of its workflow", calls(
        TALL, store(1, 15, book=THREE), [(TURN, [i]) for i in range(3)], {0: agent(3, 2), 1: agent(5, 1), 2: agent(7)}),
     "answer reply 3 0\nanswer reply 5 0\nanswer reply 7 0\n"),
    ("an agent of id 5 at the place where id 3 ends", turn(TALL, store(1, 15, book=THREE), {0: agent(5, 2)}), refused(14)),
    ("an agent of id 4 between booked ids", turn(TALL, store(1, 15, book=THREE), {0: agent(4)}), refused(14)),
    ("data rows and log rows, log rows alone, and no row", schedule(
        pack([BEGIN, (0x90, 1), END, RETURN], [(0x60, 1), END, RETURN]), 3, 20,
        [[2**32 - 1, 0, 0, 5, 0, 0], [1, 0, 2**32 - 1, 6, 0, 0], [9, 1, 3, 0, 0, 0], [8, 1, 4, 0, 0, 0]],
        [0x00, 0x01, 0x02, 0x03, 0x10, 0x11, 0x12, 0x13], [0, 1, 2, 3, 0, 0, 0, 0]), """\
events 8
0 done
1 done
2 done
3 done
4 moved
5 moved
6 moved
7 moved
row 0 0 5
row 0 4294967295 6
log 0 1 0 4294967295
log 0 4294967295 0 0
log 1 8 0 4
log 1 9 0 3
"""),
    # W-202: figures
    ("a block of partition 7", figures((0x60, 7), END, RETURN), takes(2, 0, 0, 0, 0, 0, 0, 0, 1)),
    ("a key that is PUT twice", figures(BEGIN, (0x90, 1), (0x90, 1), END, RETURN), takes(2, 3)),
    ("a jump over a block, or through it", figures((0x50, 0x30), BEGIN, END, RETURN), takes(3, 1)),
    ("a jump that must go to come to the block", figures((0x50, 0x20), RETURN, BEGIN, END, RETURN), takes(3, 1)),
    ("a jump that values never let go: register 1 is below itself", figures((0x41, 0x21), RETURN, BEGIN, PUT, END, RETURN), takes(3, 2)),
    ("a block behind RETURN, to which no route leads", figures(RETURN, BEGIN, END, RETURN), takes(1)),
    ("only RETURN", figures(RETURN), takes(1)),
    ("255 jumps to the last instruction", figures(*[(0x40, 16 * 255)] * 255, RETURN), takes(256)),
    ("127 blocks", figures(*[BEGIN, END] * 127, RETURN), takes(128, 127)),
    ("a block with 16 PUTs behind one of each other partition",
     figures(*[x for p in range(7) for x in ((0x60, p), END)], (0x60, 7), *[PUT] * 16, END, RETURN), takes(9, *[1] * 7, 17)),
    ("two blocks of one partition: their sum", figures(BEGIN, PUT, END, BEGIN, PUT, PUT, END, RETURN), takes(3, 5)),
    ("two routes, of which each has a partition's figure", figures((0x50, 0x40), BEGIN, END, RETURN, (0x60, 1), PUT, END, RETURN),
     takes(3, 1, 2)),
    ("the most turns and the most rows on two routes", figures((0x50, 0x50), BEGIN, PUT, END, RETURN, SET, SET, SET, RETURN), takes(5, 2)),
    ("a jump inside a block, over its PUTs", figures(BEGIN, (0x50, 0x40), PUT, PUT, END, RETURN), takes(2, 3)),
    ("jumps inside a block, each over a PUT", figures(BEGIN, (0x50, 0x30), PUT, (0x50, 0x50), PUT, END, RETURN), takes(2, 3)),
    ("the figures of MOVE", figures(*MOVING), takes(4, 2, 2)),
    ("the second of two workflows", call(FIGURES, [1], pack([RETURN], [SET, (0x60, 2), END, RETURN])), takes(3, 0, 0, 1)),
    ("figures of a workflow that the pack has not", call(FIGURES, [1], ONE), refused(17)),
    ("figures of workflow 2^32 - 1", call(FIGURES, [2**32 - 1], ONE), refused(17)),
    ("figures of an empty pack, 1 before 17", call(FIGURES, [1]), refused(1)),
    ("figures of a pack whose other workflow has a wrong operation", call(FIGURES, [0], pack([RETURN], [SET, (0xC0, 0)])),
     refused(4, 1, 1)),
    ("figures of a pack whose last instruction is no RETURN", call(FIGURES, [0], pack([RETURN, SET])), refused(8, 0, 1)),
    ("figures get no store and no slots", call(FIGURES, [0], ONE, b"\1\2\3", {0: agent(9, 9, 9, in_use=2)}), takes(1)),
    ("a workflow that takes five rows", figures(*FIVE), takes(3, 5)),
    ("its run in five rows, with a crash and a retry in it", calls(pack(FIVE), store(1, 5), [
        (ARRIVAL, [0, 7, 0, 100, 200, 300, 400]), (TURN, [0]), (CRASH, [0]), (RETRY, [0, 7]), (TURN, [0]), (TURN, [0]), (TURN, [0])]),
     DONE + MOVED + DONE * 2 + MOVED * 2 + "answer reply 7 100\n",
     store(1, 5, [(0, log(7, 0), 100), (0, log(7, 1), 100), (0, data(100), 200), (0, data(200), 300), (0, data(300), 400)],
           [(7, 0, [100, 200, 300, 400])])),
    ("its run with four rows free", calls(pack(FIVE), store(1, 5, [(0, data(9), 1)]), [
        (ARRIVAL, [0, 7, 0, 100, 200, 300, 400]), (TURN, [0]), (TURN, [0])]),
     DONE + MOVED + refused(21),
     store(1, 5, [(0, log(7, 0), 100), (0, data(9), 1), (0, data(100), 200)], [(7, 0, [100, 200, 300, 400])])),
    # W-208: add
    ("add: a booked id to an empty list", add([]), DONE, None, waits(7)),
    ("add: a new id goes to the end of the list, waiting", add(taken(9) + waits(8)), DONE, None, taken(9) + waits(8, 7)),
    ("add: a new id goes behind taken ones", add(waits(8) + taken(9)), DONE, None, waits(8) + taken(9) + waits(7)),
    ("add: a listed id that waits changes nothing", add(waits(7, 8)), DONE),
    ("add: a listed id that is taken stays taken", add(waits(8) + taken(7)), DONE),
    ("add: an id that is not booked", add(waits(7), 8), refused(20)),
    ("add: a listed id that is not booked", add(waits(8), 8), refused(20)),
    ("add: a listed id that is taken and not booked", add(taken(8), 8), refused(20)),
    ("add: 15 listed, the new id is the 16th", add(waits(*FIFTEEN_IDS)), DONE, None, waits(*FIFTEEN_IDS, 7)),
    ("add: 16 listed, a new id", add(waits(*SIXTEEN_IDS)), refused(26)),
    ("add: 16 listed, all taken, a new id", add(taken(*SIXTEEN_IDS)), refused(26)),
    ("add: 16 listed, and the id is not booked: 26 before 20", add(waits(*SIXTEEN_IDS), 8), refused(26)),
    ("add: 16 listed, the last of them", add(waits(*FIFTEEN_IDS, 7)), DONE),
    ("add: 16 listed, the first of them, taken", add(taken(7) + waits(*FIFTEEN_IDS)), DONE),
    ("add: 16 listed, the last of them, which is not booked", add(waits(*SIXTEEN_IDS), 36), refused(20)),
    ("add: a request that is logged through already", add([], p=KEPT, s=KEPT_SEVEN), DONE, None, waits(7)),
    ("add: agents of the id in all eight slots", add([], slots={i: agent(7) for i in range(8)}), DONE, None, waits(7)),
    # take
    ("take: the first of two that wait, by order of entry", take(waits(9, 8)), gives(9), None, taken(9) + waits(8)),
    ("take: the first that waits behind a taken one", take(taken(9) + waits(7, 8)), gives(7), None, taken(9, 7) + waits(8)),
    ("take: the first that waits ahead of a taken one", take(waits(8) + taken(7)), gives(8), None, taken(8, 7)),
    ("take: none waits", take(taken(8, 7)), refused(27)),
    ("take: an empty list", take([]), refused(27)),
    ("take: 16 listed, the last of them waits", take(taken(*FIFTEEN_IDS) + waits(7)), gives(7), None, taken(*FIFTEEN_IDS, 7)),
    ("take: 16 listed, none waits", take(taken(*SIXTEEN_IDS)), refused(27)),
    ("take: a request that is logged through already", take(waits(7), KEPT, KEPT_SEVEN), gives(7), None, taken(7)),
    ("take: agents of the id in all eight slots", take(waits(7), slots={i: agent(7) for i in range(8)}), gives(7), None, taken(7)),
    ("add, take and done start no agent and empty no slot", calls(ONE, SEVEN_BOOKED, [
        (ADD, [7]), (TURN, [0]), (TAKE, []), (TURN, [0]), (FINISH, [7]), (TURN, [0]), (TURN, [1])], {1: agent(7, registers=[42])}),
     DONE + refused(16) + gives(7) + refused(16) + DONE + refused(16) + value_of(7, 42)),
    # done
    ("done: a request without blocks is logged through from its booking", finish(taken(7)), DONE, None, []),
    ("done: an id that waits", finish(waits(7)), refused(27)),
    ("done: an id that is not listed", finish(taken(8)), refused(27)),
    ("done: an empty list", finish([]), refused(27)),
    ("done: a taken id that is not booked", finish(taken(8), 8), refused(27)),
    ("done: in the middle, later ones move up with their marks", finish(taken(9, 7) + waits(8) + taken(6)), DONE, None,
     taken(9) + waits(8) + taken(6)),
    ("done: the first of 16", finish(taken(7) + waits(*FIFTEEN_IDS)), DONE, None, waits(*FIFTEEN_IDS)),
    ("done: the last of 16", finish(taken(*FIFTEEN_IDS, 7)), DONE, None, taken(*FIFTEEN_IDS)),
    ("done: a block that is not logged", finish(taken(7), p=KEPT), refused(27)),
    ("done: a block that is logged", finish(taken(7), p=KEPT, s=KEPT_SEVEN), DONE, None, []),
    ("done: a block that is logged with result 0", finish(taken(7), p=KEPT, s=kept(0)), DONE, None, []),
    ("done: logged through, but the id waits", finish(waits(7), p=KEPT, s=KEPT_SEVEN), refused(27)),
    ("done: MOVE with one block logged", finish(taken(7), p=MOVE, s=HALF_MOVED), refused(27)),
    ("done: MOVE with both blocks logged", finish(taken(7), p=MOVE, s=MOVED_SEVEN), DONE, None, []),
    *(not_through(words, rows) for words, rows in NOT_THROUGH),
    ("done: a book row with the log row's number", finish(taken(7), p=KEPT, s=store(1, 10, book=[*BOOKED, like(57344)])), refused(27)),
    ("done: a jump goes by the logged result, over a block that is not logged", finish(taken(7), p=UNLESS_EQUAL, s=kept(200)), DONE, None,
     []),
    ("done: a jump does not go by the logged result, to a block that is not logged", finish(taken(7), p=UNLESS_EQUAL, s=kept(199)),
     refused(27)),
    ("done: the first block that is passed has step 0, though it is the workflow's second", finish(taken(7), p=OVER, s=kept(9)), DONE, None,
     []),
    ("done: the same with a log row of step 1", finish(taken(7), p=OVER, s=store(1, 5, [(0, log(7, 1), 9)], BOOKED)), refused(27)),
    ("done: 256 instructions", finish(taken(7), p=LONG), DONE, None, []),
    ("done: a block in each of eight partitions, the last not logged", finish(taken(7), p=EIGHT_BLOCKS, s=eight_logged(7)), refused(27)),
    ("done: a block in each of eight partitions", finish(taken(7), p=EIGHT_BLOCKS, s=eight_logged(8)), DONE, None, []),
    ("done: an agent of the id in a slot, at RETURN, which replies afterwards", calls(
        KEPT, KEPT_SEVEN, [(FINISH, [7]), (TURN, [2])], {2: agent(7, 3, 1, [100])}, taken(7)), DONE + value_of(7, 100), None, []),
    ("done: an agent of the id in a slot, at its start, logged through", finish(
        taken(7), p=KEPT, s=KEPT_SEVEN, slots={0: agent(7, registers=[100, 200, 30])}), DONE, None, []),
    ("done: an agent of the id in a slot, at its block, not logged", finish(
        taken(7), p=KEPT, slots={0: agent(7, registers=[100, 200, 30])}), refused(27)),
    ("done: an agent at RETURN whose block is not logged", finish(taken(7), p=KEPT, slots={0: agent(7, 3, 1, [100])}), refused(27)),
    # restart
    ("restart: taken and waiting ids all wait, in their order", call(RESTART, (), ONE, SEVEN_BOOKED, listed=taken(9) + waits(8) + taken(7)),
     DONE, None, waits(9, 8, 7)),
    ("restart: 16 taken", call(RESTART, (), ONE, SEVEN_BOOKED, listed=taken(*SIXTEEN_IDS)), DONE, None, waits(*SIXTEEN_IDS)),
    ("restart: an empty list", call(RESTART, (), ONE, SEVEN_BOOKED, listed=[]), DONE),
    ("restart: asks neither for a pack nor for a store nor for sound slots, and marks all as waiting",
     call(RESTART, store=b"\xff", slots={0: agent(0, in_use=2)}, listed=taken(7)), DONE, None, waits(7)),
    ("restart: the slot is free and the id is given again", calls(
        ONE, SEVEN_BOOKED, [(RETRY, [0, 7]), (TAKE, []), (RESTART, []), (RETRY, [0, 7]), (TAKE, [])], {0: agent(7)}, taken(7)),
     refused(16) + refused(27) + DONE * 2 + gives(7)),
    # 25, and the order of the questions
    *(bad_list(words, listed) for words, listed in BAD_LISTS),
    ("25 is asked before 26, 20 and 27", calls(
        ONE, SEVEN_BOOKED, [(ADD, [7]), (ADD, [8]), (TAKE, []), (FINISH, [7])], listed=taken(*FIFTEEN_IDS, FIFTEEN_IDS[0])),
     refused(25) * 4),
    ("25 is asked before 20: fewer than 16 listed", add(taken(9, 9), 8), refused(25)),
    *(before_25(*line) for line in BEFORE_25),
    ("14 is asked before 26", add(waits(*SIXTEEN_IDS), slots={3: agent(8)}), refused(14)),
    ("14 is asked before 20", add([], 8, slots={3: agent(8)}), refused(14)),
    ("14 is asked before 27: take and done", calls(ONE, SEVEN_BOOKED, [(TAKE, []), (FINISH, [7])], {3: agent(8)}), refused(14) * 2),
    # calls that don't ask about the list
    ("an arrival beside a list that 25 would say no to", call(ARRIVAL, [0, *SEVEN], ONE, store(), listed=MARK_2), DONE, SEVEN_BOOKED),
    ("a retry beside a list that 25 would say no to", call(RETRY, [0, 7], ONE, SEVEN_BOOKED, listed=MARK_2), DONE),
    ("a turn beside a list that 25 would say no to", call(TURN, [0], ONE, SEVEN_BOOKED, {0: agent(7, registers=[42])}, MARK_2),
     value_of(7, 42)),
    ("a crash beside a list that 25 would say no to", call(CRASH, [0], ONE, SEVEN_BOOKED, {0: agent(7)}, MARK_2), DONE),
    ("order beside a list that 25 would say no to", call(
        ORDER, (), ONE, written(1, 5, [(0, data(2), 1), (0, data(1), 2)]), listed=MARK_2), DONE,
     written(1, 5, [(0, data(1), 2), (0, data(2), 1)])),
    ("the same calls one after the other beside 17 ids", calls(
        KEPT, store(), [(ARRIVAL, [0, *SEVEN]), (TURN, [0]), (CRASH, [0]), (RETRY, [0, 7]), (TURN, [0]), (ORDER, []), (TURN, [0])],
        listed=taken(7) + waits(*SIXTEEN_IDS)), DONE + MOVED + DONE * 2 + MOVED + DONE + value_of(7, 100), KEPT_SEVEN),
    ("an arrival, a turn that replies, a retry and a crash change no mark", calls(
        ONE, SEVEN_BOOKED, [(ARRIVAL, [0, *SEVEN]), (TURN, [0]), (RETRY, [0, 7]), (CRASH, [0])], listed=taken(7) + waits(8)),
     DONE + value_of(7, 100) + DONE * 2),
    # the worklist through several calls
    ("a worker is killed between take and done, and the next one finishes", calls(MOVE, store(2, 5), [
        (ARRIVAL, [0, *SEVEN]), (ADD, [7]), (TAKE, []), (TURN, [0]), (TURN, [0]), (CRASH, [0]), (FINISH, [7]), (RESTART, []), (FINISH, [7]),
        (TAKE, []), (RETRY, [0, 7]), (TURN, [0]), (TURN, [0]), (FINISH, [7]), (TURN, [0]), (TURN, [0]), (FINISH, [7]), (FINISH, [7]),
        (TAKE, [])]),
     DONE * 2 + gives(7) + MOVED * 2 + DONE + refused(27) + DONE + refused(27) + gives(7) + DONE + MOVED * 2 + refused(27) + MOVED
     + value_of(7, 30) + DONE + refused(27) * 2, MOVED_SEVEN),
    ("the same, cut behind the second take", calls(MOVE, store(2, 5), [
        (ARRIVAL, [0, *SEVEN]), (ADD, [7]), (TAKE, []), (TURN, [0]), (TURN, [0]), (CRASH, [0]), (RESTART, []), (TAKE, [])]),
     DONE * 2 + gives(7) + MOVED * 2 + DONE * 2 + gives(7), HALF_MOVED, taken(7)),
    ("a worker is killed behind the reply: done once it is taken again", calls(KEPT, store(), [
        (ARRIVAL, [0, *SEVEN]), (ADD, [7]), (TAKE, []), (TURN, [0]), (TURN, [0]), (RESTART, []), (FINISH, [7]), (TAKE, []), (FINISH, [7])]),
     DONE * 2 + gives(7) + MOVED + value_of(7, 100) + DONE + refused(27) + gives(7) + DONE, KEPT_SEVEN),
    ("two workers, and the one that took later is done first", calls(KEPT, store(1, 10), [
        (ARRIVAL, [0, 7, 0, 100, 1, 0, 0]), (ARRIVAL, [1, 8, 0, 50, 2, 0, 0]), (ADD, [8]), (ADD, [7]), (TAKE, []), (TAKE, []), (TAKE, []),
        (TURN, [0]), (FINISH, [8]), (FINISH, [7]), (TURN, [1])]),
     DONE * 4 + gives(8) + gives(7) + refused(27) + MOVED + refused(27) + DONE + MOVED, BOTH, taken(8)),
    ("an id that was done is added again: it is new, goes to the end and waits", calls(
        ONE, SEVEN_BOOKED, [(FINISH, [7]), (FINISH, [7]), (ADD, [7])], listed=taken(7) + waits(8)),
     DONE + refused(27) + DONE, None, waits(8, 7)),
    ("16 listed: 26, and behind a done the new id goes to the end", calls(
        ONE, store(1, 10, book=[*BOOKED, NEXT]), [(ADD, [8]), (FINISH, [7]), (ADD, [8])], listed=taken(7) + waits(*FIFTEEN_IDS)),
     refused(26) + DONE * 2, None, waits(*FIFTEEN_IDS, 8)),
    ("the ids 2^32 - 1 and 0, the latter of an older book", calls(
        ONE, store(1, 10, book=[*ZERO, like(2**32 - 1)]),
        [(ADD, [2**32 - 1]), (ADD, [0]), (TAKE, []), (TAKE, []), (FINISH, [0]), (ADD, [0]), (FINISH, [0])]),
     DONE * 2 + gives(2**32 - 1) + gives(0) + DONE * 2 + refused(27), None, taken(2**32 - 1) + waits(0)),
    ("ids that differ from 7 in another byte each", calls(
        ONE, SEVEN_BOOKED, [(FINISH, [7]), (ADD, [7]), (FINISH, [7]), (TAKE, []), (FINISH, [7])],
        listed=taken(7 + 2**8, 7 + 2**16, 7 + 2**24)), refused(27) + DONE + refused(27) + gives(7) + DONE),
    ("an older store: 11, and once it is in order an id is added", calls(
        ONE, written(1, 5, FALLING), [(ADD, [7]), (ORDER, []), (ADD, [7])]), refused(11) + DONE * 2, SEVEN_BOOKED, waits(7)),
    # the reply worked out from the log
    ("reply: a request without blocks, from its booking on", reply(), value_of(7, 100)),
    ("reply: a difference below 0, without blocks", reply(pack([(0x30, 1), RETURN])), value_of(7, 2**32 - 100)),
    ("reply: of its own workflow, the last argument", reply(
        pack([BEGIN, END, RETURN], [(0xB3, 0)]), store(book=[(7, 1, [100, 200, 30, 40])])), value_of(7, 40)),
    ("reply: MOVE with both blocks logged", reply(MOVE, MOVED_SEVEN), value_of(7, 30)),
    ("reply: MOVE with one block logged", reply(MOVE, HALF_MOVED), NOT_YET),
    ("reply: MOVE with the second block alone logged", reply(MOVE, store(2, 5, [(1, log(7, 1), 30)], BOOKED)), NOT_YET),
    ("reply: MOVE with no block logged", reply(MOVE, store(2, 5, book=BOOKED)), NOT_YET),
    ("reply: the log row stands in another partition", reply(KEPT, store(2, 5, [(1, log(7, 0), 9)], BOOKED)), NOT_YET),
    ("reply: the log row has another step", reply(KEPT, store(1, 5, [(0, log(7, 1), 9)], BOOKED)), NOT_YET),
    ("reply: the logged result, whatever data row there is", reply(KEPT, kept(55, (0, data(100), 3))), value_of(7, 55)),
    ("reply: the logged result 0", reply(KEPT, kept(0)), value_of(7, 0)),
    ("reply: only register 0 takes the result, and a sum keeps the remainder", reply(
        pack([NINE, BEGIN, (0x05, 4), (0x75, 0), (0x25, 0), (0xB5, 0)]), kept(2**32 - 4)), value_of(7, 5)),
    ("reply: a logged result below argument 1 jumps over the second block", reply(UNLESS_BELOW, kept(199)), value_of(7, 199)),
    ("reply: a logged result that is argument 1 comes to the second block", reply(UNLESS_BELOW, kept(200)), NOT_YET),
    ("reply: the second block is logged too", reply(UNLESS_BELOW, kept(200, (0, log(7, 1), 77))), value_of(7, 77)),
    ("reply: the first block that is passed has step 0, though it is the workflow's second", reply(OVER, kept(9)), value_of(7, 9)),
    ("reply: 256 instructions", reply(LONG), value_of(7, 7850)),
    ("reply: a block in each of eight partitions", reply(EIGHT_BLOCKS, eight_logged(8)), value_of(7, 8)),
    ("reply: id 0 of an older book", reply(ONE, store(book=ZERO), 0), value_of(0, 100)),
    ("reply: the greatest id", reply(KEPT, store(1, 5, [(0, log(2**32 - 1, 0), 55)], [like(2**32 - 1)]), 2**32 - 1),
     value_of(2**32 - 1, 55)),
    ("reply: an id that is not booked", reply(id=8), refused(20)),
    ("reply: an id that is not booked, with a log row of it", reply(KEPT, store(1, 5, [(0, log(8, 0), 9)], BOOKED), 8), refused(20)),
    ("reply: no sound record is asked for", reply(slots={0: agent(0, in_use=2), 3: agent(8)}), value_of(7, 100)),
    ("reply: an agent at RETURN whose block is not logged", reply(KEPT, slots={0: agent(7, 3, 1, [100])}), NOT_YET),
    ("reply: a list that 25 would say no to", call(REPLY, [7], ONE, SEVEN_BOOKED, listed=MARK_2), value_of(7, 100)),
    *(("reply: %d is asked before 20" % no[0], reply(p, s, 8), refused(*no)) for no, p, s, slots in BEFORE_25 if slots is None),
    # W-209: retiring, and which ids are smaller
    ("retire: the one booked id is just below the floor", retire(8), DONE, FLOOR_8),
    ("29: the floor is at the booked id", retire(7), refused(29)),
    ("29: the floor is below the booked id", retire(6), refused(29)),
    ("29: floor 0, where id 0 of an older book is", retire(0, s=store(book=ZERO)), refused(29)),
    ("29: an empty book, floors 0, 1 and 2^32 - 1", calls(ONE, store(), [(RETIRE, [floor]) for floor in [0, 1, 2**32 - 1]]),
     refused(29) * 3),
    ("29: an id is booked at the floor, an agent of it in a slot, and it is listed, and so is a smaller one that is not booked",
     retire(7, waits(6) + taken(7), slots={0: agent(7)}), refused(29)),
    retire_three(4, THREE[1:]), retire_three(5, THREE[1:]), retire_three(6, THREE[2:]), retire_three(7, THREE[2:]), retire_three(8, []),
    ("retire: floors 3 to 8 in turn where 3, 5 and 7 are booked, then smaller ones", calls(
        TALL, store(1, 15, book=THREE), [(RETIRE, [floor]) for floor in [3, 4, 4, 5, 6, 7, 8, 8, 5, 0]]),
     refused(29) + DONE + refused(29) * 2 + DONE + refused(29) + DONE + refused(29) * 3, store(1, 15, floor=8)),
    ("retire: ids and floors that differ in another byte each", calls(
        ONE, store(1, 20, book=map(like, BYTEWISE)), [(RETIRE, [floor]) for floor in [255, 256, 257, 65535, 65536, 2**24, 2**24]]),
     refused(29) + DONE * 2 + refused(29) + DONE * 2 + refused(29), store(1, 20, floor=2**24)),
    ("retire: floor 2^32 - 1, where 2^32 - 2 goes and 2^32 - 1 stays", retire(2**32 - 1, p=KEPT, s=store(1, 10, [
        (0, log(2**32 - 2, 0), 100), (0, log(2**32 - 2, 65535), 1), (0, log(2**32 - 1, 0), 50), (0, data(0), 5)],
        [like(2**32 - 2), like(2**32 - 1)])), DONE,
     store(1, 10, [(0, log(2**32 - 1, 0), 50), (0, data(0), 5)], [like(2**32 - 1)], floor=2**32 - 1)),
    ("the greatest id is never retired, and is booked and retried as ever", calls(ONE, store(1, 6, floor=2**32 - 1), [
        (ARRIVAL, [0, 2**32 - 2, 0]), (ARRIVAL, [0, 2**32 - 1, 0]), (CRASH, [0]), (RETIRE, [2**32 - 1]), (RETRY, [0, 2**32 - 1])]),
     refused(30) + DONE * 2 + refused(29) + DONE, store(1, 6, book=[empty_request(2**32 - 1)], floor=2**32 - 1)),
    # id 0 of an older book, which is in no empty slot and on no empty list
    ("retire: id 0 of an older book, all slots empty and none listed", retire(1, s=store(book=ZERO)), DONE, store(floor=1)),
    ("retire: id 0 of an older book beside an agent and an entry of id 7", retire(
        1, taken(7), s=store(1, 10, book=[*ZERO, like(7)]), slots={3: agent(7)}), DONE, store(1, 10, book=[like(7)], floor=1)),
    ("28: id 0 of an older book, an agent of it in a slot", retire(1, s=store(book=ZERO), slots={0: agent(0)}), refused(28)),
    ("28: id 0 of an older book, listed", retire(1, waits(0), s=store(book=ZERO)), refused(28)),
    # 28, logged through
    ("28: a block that is not logged", retire(p=KEPT), refused(28)),
    ("retire: a block that is logged; its data row stays", retire(p=KEPT, s=KEPT_SEVEN), DONE, store(1, 5, [(0, data(100), 200)], floor=8)),
    ("retire: a block that is logged with result 0", retire(p=KEPT, s=kept(0)), DONE, FLOOR_8),
    ("28: MOVE with one block logged", retire(p=MOVE, s=HALF_MOVED), refused(28)),
    ("retire: MOVE with both blocks logged", retire(p=MOVE, s=MOVED_SEVEN), DONE,
     store(2, 5, [(0, data(100), 2**32 - 30), (1, data(200), 30)], floor=8)),
    *(retire_not_through(*NOT_THROUGH[i]) for i in [1, 4, 7, 8]),
    ("retire: a jump goes by the logged result, over a block that is not logged", retire(p=UNLESS_EQUAL, s=kept(200)), DONE, FLOOR_8),
    ("28: a jump does not go by the logged result, to a block that is not logged", retire(p=UNLESS_EQUAL, s=kept(199)), refused(28)),
    ("28: a block in each of eight partitions, the last not logged", retire(p=EIGHT_BLOCKS, s=eight_logged(7)), refused(28)),
    ("retire: a block in each of eight partitions", retire(p=EIGHT_BLOCKS, s=eight_logged(8)), DONE, store(8, 5, floor=8)),
    ("28: of three smaller ids the first is not logged through", retire(p=SOME_BLOCK, s=three_workflows(1, 0, 0)), refused(28)),
    ("28: of three smaller ids the second is not logged through", retire(p=SOME_BLOCK, s=three_workflows(0, 1, 0)), refused(28)),
    ("28: of three smaller ids the last is not logged through", retire(p=SOME_BLOCK, s=three_workflows(0, 0, 1)), refused(28)),
    ("retire: an id at the floor needn't be logged through", retire(7, p=SOME_BLOCK, s=three_workflows(0, 0, 1)), DONE,
     store(1, 15, book=[(7, 1, [1, 2, 3, 4])], floor=7)),
    # 28, the slots
    ("28: an agent of the id in slot 0", retire(slots={0: agent(7)}), refused(28)),
    ("28: an agent of the id in slot 7", retire(slots={7: agent(7)}), refused(28)),
    ("28: an agent at RETURN, logged through", retire(p=KEPT, s=KEPT_SEVEN, slots={2: agent(7, 3, 1, [100])}), refused(28)),
    ("28: an agent of the second of two smaller ids", retire(9, s=store(1, 10, book=TWO), slots={5: agent(8)}), refused(28)),
    ("retire: agents of the id at the floor in all slots, which go on", calls(
        ONE, store(1, 10, book=TWO), [(RETIRE, [8]), (TURN, [0]), (TURN, [7])], {i: agent(8, registers=[i]) for i in range(8)}),
     DONE + value_of(8, 0) + value_of(8, 7), store(1, 10, book=[like(8)], floor=8)),
    ("28 until a crash empties the slot", calls(ONE, SEVEN_BOOKED, [(RETIRE, [8]), (CRASH, [4]), (RETIRE, [8])], {4: agent(7)}),
     refused(28) + DONE * 2, FLOOR_8),
    ("28 until the reply empties the slot", calls(
        ONE, SEVEN_BOOKED, [(RETIRE, [8]), (TURN, [0]), (RETIRE, [8])], {0: agent(7, registers=[42])}),
     refused(28) + value_of(7, 42) + DONE, FLOOR_8),
    # 28, the worklist
    ("28: the id waits on the worklist", retire(8, waits(7)), refused(28)),
    ("28: the id is taken", retire(8, taken(7)), refused(28)),
    ("28: the id is the last of 16", retire(8, taken(*FIFTEEN_IDS) + waits(7)), refused(28)),
    ("28: the second of two smaller ids waits", retire(9, waits(8), s=store(1, 10, book=TWO)), refused(28)),
    ("retire: smaller ids on the worklist that are not booked stay there", retire(8, waits(3) + taken(6)), DONE, FLOOR_8),
    ("retire: the id at the floor is on the worklist and stays there", retire(8, taken(8), s=store(1, 10, book=TWO)), DONE,
     store(1, 10, book=[like(8)], floor=8)),
    ("retire: 16 listed, three of which differ from 7 in one byte", retire(
        8, taken(7 + 2**8, 7 + 2**16, 7 + 2**24) + waits(*FIFTEEN_IDS[2:])), DONE, FLOOR_8),
    ("28 until a done takes the id off the worklist", calls(
        ONE, SEVEN_BOOKED, [(RETIRE, [8]), (TAKE, []), (RETIRE, [8]), (FINISH, [7]), (RETIRE, [8])], listed=waits(7)),
     refused(28) + gives(7) + refused(28) + DONE * 2, FLOOR_8, []),
    ("28: a restart empties the slot, and the id is still listed", calls(
        ONE, SEVEN_BOOKED, [(RETIRE, [8]), (RESTART, []), (RETIRE, [8])], {0: agent(7)}, taken(7)),
     refused(28) + DONE + refused(28), None, waits(7)),
    # which rows go
    ("retire: log rows of smaller ids, booked or not, in every partition that has some; data rows stay", retire(
        s=store(3, 6, KEPT_ROWS + GOING_ROWS, BOOKED)), DONE, store(3, 6, KEPT_ROWS, floor=8)),
    ("29 and 28: log rows of smaller ids that are not booked stay with a retire that is refused", calls(
        ONE, store(3, 6, KEPT_ROWS + GOING_ROWS, BOOKED), [(RETIRE, [7]), (RETIRE, [8])], listed=waits(7)), refused(29) + refused(28)),
    ("retire: a full partition of log rows becomes empty", retire(s=store(1, 5, [(0, log(7, t), t + 1) for t in range(5)], BOOKED)), DONE,
     FLOOR_8),
    ("retire: a full partition of data rows stays", retire(s=store(1, 5, [(0, data(k), k + 1) for k in range(5)], BOOKED)), DONE,
     store(1, 5, [(0, data(k), k + 1) for k in range(5)], floor=8)),
    ("retire: the log row of id 2^24, step 0 has the floor row's number and stays", retire(
        s=store(1, 5, [(0, log(7, 0), 1), (0, 2**40, 9)], BOOKED)), DONE, store(1, 5, [(0, 2**40, 9)], floor=8)),
    ("retire: the log row of id 2^24, step 0 goes with its id", retire(2**24 + 1, s=store(1, 5, [(0, 2**40, 9)], [like(2**24)])), DONE,
     store(floor=2**24 + 1)),
    ("log rows below the floor of a store stay until a retire is accepted", calls(
        ONE, store(1, 6, [(0, log(3, 0), 1), (0, log(8, 0), 2)], [like(8)], floor=7), [(RETIRE, [8]), (RETRY, [0, 8]), (CRASH, [0])]),
     refused(29) + DONE * 2),
    ("retire: log rows below the floor that a store had before", retire(
        9, s=store(1, 6, [(0, log(3, 0), 1), (0, log(8, 0), 2), (0, log(9, 0), 3)], [like(8)], floor=7)), DONE,
     store(1, 6, [(0, log(9, 0), 3)], floor=9)),
    # the floor row
    ("retire: a floor row is overwritten, in a full book", retire(8, s=store(1, 11, book=TWO, floor=7)), DONE,
     store(1, 11, book=[like(8)], floor=8)),
    ("retire: two floors, each of them twice", calls(ONE, store(1, 10, book=TWO), [(RETIRE, [floor]) for floor in [8, 8, 9, 9]]),
     (DONE + refused(29)) * 2, store(1, 10, floor=9)),
    ("29: floors below the one that is kept, at it and at the booked id", calls(
        ONE, store(1, 6, book=[like(25)], floor=20), [(RETIRE, [floor]) for floor in [0, 10, 20, 25]]), refused(29) * 4),
    ("retire: a floor row of value 0 is overwritten", retire(s=store(1, 6, book=BOOKED, floor=0)), DONE, store(1, 6, floor=8)),
    ("a floor row of value 0: id 1 arrives", arrives_at(1, 0), DONE, store(1, 6, book=[empty_request(1)], floor=0)),
    ("a floor row of value 0: id 0 of an older book is retried, then retired", calls(
        ONE, store(1, 6, book=ZERO, floor=0), [(RETRY, [0, 0]), (RETIRE, [1]), (CRASH, [0]), (RETIRE, [1])]),
     DONE + refused(28) + DONE * 2, store(1, 6, floor=1)),
    # 11, 12 and 13 of a floor row
    ("a floor row alone: no five rows, and a value that is no workflow", turn(s=FLOOR_8), refused(16)),
    ("a floor row with the booked id at the floor", turn(s=AT_FLOOR), refused(16)),
    ("a floor row with the booked id above the floor", turn(s=store(1, 6, book=BOOKED, floor=6)), refused(16)),
    ("a floor row with the booked id below the floor: every call that puts 12", calls(ONE, BELOW_FLOOR, [
        (ARRIVAL, [1, 9, 0]), (RETRY, [1, 7]), (TURN, [0]), (CRASH, [0]), (ORDER, []), (ADD, [7]), (TAKE, []), (FINISH, [7]), (RETIRE, [8]),
        (RETIRE, [7])], {0: agent(7)}), refused(12) * 10),
    ("reply: the booked id is below the floor", reply(s=BELOW_FLOOR), refused(12)),
    ("of two booked ids the first is below the floor", turn(s=store(1, 11, book=TWO, floor=8)), refused(12)),
    ("id 0 of an older book and floor 1", turn(s=store(1, 6, book=ZERO, floor=1)), refused(12)),
    ("id 0 of an older book and floor 0", turn(s=store(1, 6, book=ZERO, floor=0)), refused(16)),
    ("floor 2^32 - 1 and id 2^32 - 1", turn(s=store(1, 6, book=[like(2**32 - 1)], floor=2**32 - 1)), refused(16)),
    ("floor 2^32 - 1 and id 2^32 - 2", turn(s=store(1, 6, book=[like(2**32 - 2)], floor=2**32 - 1)), refused(12)),
    ("four rows of an id and the floor row", turn(s=store(1, 5, [(1, 8 * 7 + j, 0) for j in range(4)], floor=7)), refused(12)),
    ("a floor row behind a booked workflow that the pack has not", turn(s=store(1, 6, book=[(7, 1, [0] * 4)], floor=7)), refused(13)),
    ("12 of the floor is asked before 13", turn(s=store(1, 6, book=[(7, 1, [0] * 4)], floor=8)), refused(12)),
    ("a floor row ahead of the other rows of the book: arrival, retry, turn and crash", asked(written(1, 6, [(1, FLOOR_KEY, 7)], BOOKED)),
     refused(11) * 4),
    ("11 of a floor row that isn't last is asked before 12", turn(s=written(1, 6, [(1, FLOOR_KEY, 8)], BOOKED)), refused(11)),
    ("the floor row twice", turn(s=store(1, 5, [(1, FLOOR_KEY, 8)], floor=8)), refused(11)),
    ("the floor row behind the used count", turn(s=store(floor=8, used={1: 0})), refused(11)),
    *(("a key of the book that is the floor row's %s" % words, turn(s=store(1, 5, [(1, key, 8)])), refused(11))
      for words, key in [("less 1", 2**40 - 1), ("and 1", 2**40 + 1), ("and 8", 2**40 + 8), ("halved", 2**39), ("twice", 2**41),
                         ("with the highest bit set", data(2**40))]),
    ("the floor row's number in a partition is a log row's: id 1 arrives", call(
        ARRIVAL, [0, 1, 0], ONE, store(1, 5, [(0, 2**40, 9)])), DONE, store(1, 5, [(0, 2**40, 9)], [empty_request(1)])),
    ("an agent of an id below the floor", turn(s=FLOOR_8, slots={0: agent(7)}), refused(14)),
    # the floor row and order
    ("order: a floor row ahead of the other rows of the book", order(written(1, 6, [(1, FLOOR_KEY, 7)], BOOKED)), DONE, AT_FLOOR),
    ("order: a floor row between them, and log rows below the floor, which stay", order(written(1, 6, [
        (0, data(1), 1), (0, log(3, 0), 2), (1, 60, 0), (1, 58, 200), (1, FLOOR_KEY, 7), (1, 59, 30), (1, 56, 0), (1, 57, 100)])), DONE,
     store(1, 6, [(0, log(3, 0), 2), (0, data(1), 1)], BOOKED, floor=7)),
    ("order: a floor row alone", order(FLOOR_8), DONE),
    ("order: a booked id below the floor", order(BELOW_FLOOR), refused(12)),
    ("order: a booked id below the floor, in another order", order(written(1, 6, [(1, FLOOR_KEY, 8)], BOOKED)), refused(12)),
    ("order: the floor row twice, apart", order(written(1, 7, [(1, FLOOR_KEY, 7), *FALLING, (1, FLOOR_KEY, 7)])), refused(11)),
    ("order: four rows of an id and the floor row", order(written(1, 5, [(1, FLOOR_KEY, 7)] + [(1, 8 * 7 + j, 0) for j in range(4)])),
     refused(12)),
    # 30, between 24 and 17
    ("an arrival just below the floor", arrives_at(6, 7), refused(30)),
    ("an arrival with id 1, below floor 2", arrives_at(1, 2), refused(30)),
    ("an arrival at the floor", arrives_at(7, 7), DONE, store(1, 6, book=[empty_request(7)], floor=7)),
    ("an arrival above the floor", arrives_at(8, 7), DONE, store(1, 6, book=[empty_request(8)], floor=7)),
    ("an arrival of the booked id at the floor", call(ARRIVAL, [0, *SEVEN], ONE, AT_FLOOR), DONE),
    ("24 is asked before 30: id 0 and floor 1", arrives_at(0, 1), refused(24)),
    ("30 is asked before 17", arrives_at(6, 7, 9), refused(30)),
    ("17 at the floor", arrives_at(7, 7, 9), refused(17)),
    ("30 is asked before 19", arrives_at(6, 7, C=5), refused(30)),
    ("19 at the floor: the floor row and four rows free", arrives_at(7, 7, C=5), refused(19)),
    ("14 is asked before 30", arrives_at(6, 7, slots={3: agent(6)}), refused(14)),
    ("15 and 16 are asked before 30, which is asked whatever workflow and arguments are; 18 and 19 from the floor on", calls(
        ONE, AT_FLOOR, [(ARRIVAL, [8, 6, 0]), (ARRIVAL, [0, 6, 0]), (ARRIVAL, [1, 6, 0]), (ARRIVAL, [1, 6, 9]),
                        (ARRIVAL, [1, 6, *SEVEN[1:]]), (ARRIVAL, [1, 7, 0]), (ARRIVAL, [1, 8, 0])], {0: agent(7)}),
     refused(15) + refused(16) + refused(30) * 3 + refused(18) + refused(19)),
    ("ids below floor 2^24 that differ in another byte each, then 2^24", calls(
        ONE, store(1, 6, floor=2**24), [(ARRIVAL, [0, id, 0]) for id in [*BYTEWISE, 2**24 - 1, 2**24]]), refused(30) * 5 + DONE,
     store(1, 6, book=[empty_request(2**24)], floor=2**24)),
    ("a new id below the booked one goes ahead of it and of the floor row", call(
        ARRIVAL, [0, 8, 0], ONE, store(1, 11, book=[like(9)], floor=7)), DONE,
     written(1, 11, book=[empty_request(8), like(9)], floor=7)),
    ("the greatest id goes behind the booked one and ahead of the floor row", call(
        ARRIVAL, [0, 2**32 - 1, 0], ONE, store(1, 11, book=[like(9)], floor=7)), DONE,
     written(1, 11, book=[like(9), empty_request(2**32 - 1)], floor=7)),
    ("a new id where the floor row leaves four rows free", call(ARRIVAL, [0, 8, 0], ONE, store(1, 10, book=[like(9)], floor=7)),
     refused(19)),
    # a retired id
    ("a request is retired: its late repeat, retry, add, done, turn, and the same retire again", calls(KEPT, KEPT_SEVEN, [
        (RETIRE, [8]), (ARRIVAL, [0, *SEVEN]), (ARRIVAL, [0, 7, 0]), (RETRY, [0, 7]), (ADD, [7]), (TAKE, []), (FINISH, [7]), (TURN, [0]),
        (RETIRE, [8]), (RESTART, []), (ARRIVAL, [0, *SEVEN])]),
     DONE + refused(30) * 2 + refused(20) * 2 + refused(27) * 2 + refused(16) + refused(29) + DONE + refused(30),
     store(1, 5, [(0, data(100), 200)], floor=8)),
    ("a retired id that is still listed: add and done", calls(ONE, FLOOR_8, [(ADD, [7]), (FINISH, [7])], listed=taken(7)),
     refused(20) + refused(27)),
    ("add: a retired id, 16 listed", add(waits(*SIXTEEN_IDS), s=FLOOR_8), refused(26)),
    ("reply: a retired id", reply(KEPT, store(1, 5, [(0, data(100), 200)], floor=8)), refused(20)),
    ("reply: an id below the floor, not booked, with a log row of it", reply(KEPT, store(1, 5, [(0, log(7, 0), 9)], floor=8)), refused(20)),
    ("reply: the booked id at the floor", reply(KEPT, store(1, 6, [(0, log(7, 0), 55)], BOOKED, floor=7)), value_of(7, 55)),
    # freed rows
    ("a book of five rows stays shut once its request is retired", calls(
        ONE, SEVEN_BOOKED, [(RETIRE, [8]), (ARRIVAL, [0, 8, 0]), (ARRIVAL, [0, 2**32 - 1, 0])]), DONE + refused(19) * 2, FLOOR_8),
    ("a book of ten rows: with the floor row one request more finds room where two are retired, and none where one is", calls(
        ONE, store(1, 10, book=TWO), [(RETIRE, [8]), (ARRIVAL, [0, 9, 0]), (RETIRE, [9]), (ARRIVAL, [0, 9, 0]), (ARRIVAL, [1, 10, 0])]),
     DONE + refused(19) + DONE * 2 + refused(19), store(1, 10, book=[empty_request(9)], floor=9)),
    one_after_the_other(7, 8, 20, 21),
    filled_again(),
    ("21 in a full partition; the rows that a retire frees there are used", calls(
        KEPT, store(1, 10, [(0, log(3, 0), 1), (0, log(7, 0), 100), *EIGHT_DATA], TWO), [(TURN, [0]), (RETIRE, [8]), (TURN, [0])],
        {0: agent(8, registers=[100, 1])}),
     refused(21) + DONE + MOVED, store(1, 10, [(0, log(8, 0), 100), *EIGHT_DATA, (0, data(100), 1)], [like(8)], floor=8)),
    # through several calls
    ("MOVE: 7 is retired while 8 is under way, which is then crashed and retried up to its reply", calls(MOVE, store(2, 10), [
        (ARRIVAL, [0, *SEVEN]), (ARRIVAL, [1, 8, 0, 100, 200, 5, 0]), *[(TURN, [0])] * 4, (TURN, [1]), (TURN, [1]), (RETIRE, [9]),
        (RETIRE, [8]), (CRASH, [1]), (RETIRE, [9]), (RETRY, [1, 8]), *[(TURN, [1])] * 4]),
     DONE * 2 + MOVED * 3 + value_of(7, 30) + MOVED * 2 + refused(28) + DONE * 2 + refused(28) + DONE + MOVED * 3 + value_of(8, 35),
     store(2, 10, [(0, log(8, 0), 2**32 - 35), (0, data(100), 2**32 - 35), (1, log(8, 1), 35), (1, data(200), 35)],
           [(8, 0, [100, 200, 5, 0])], floor=8)),
    ("a request is accepted, worked off, done and retired, and a late repeat of it doesn't act", calls(KEPT, store(), [
        (ARRIVAL, [0, *SEVEN]), (ADD, [7]), (TAKE, []), (RETIRE, [8]), (TURN, [0]), (RETIRE, [8]), (TURN, [0]), (RETIRE, [8]),
        (FINISH, [7]), (RETIRE, [8]), (ARRIVAL, [0, *SEVEN]), (RETRY, [0, 7])]),
     DONE * 2 + gives(7) + refused(28) + MOVED + refused(28) + value_of(7, 100) + refused(28) + DONE * 2 + refused(30) + refused(20),
     store(1, 5, [(0, data(100), 200)], floor=8)),
    # the order of the questions of retire
    ("25 is asked before 28 and 29", calls(ONE, SEVEN_BOOKED, [(RETIRE, [8]), (RETIRE, [7])], {0: agent(7)}, MARK_2), refused(25) * 2),
    ("14 is asked before 28 and 29", calls(ONE, SEVEN_BOOKED, [(RETIRE, [8]), (RETIRE, [7])], {3: agent(8)}, taken(7)), refused(14) * 2),
    ("11 is asked before 28, and once the store is in order the request is retired", calls(
        ONE, written(1, 5, FALLING), [(RETIRE, [8]), (ORDER, []), (RETIRE, [8])]), refused(11) + DONE * 2, FLOOR_8),
    # 22, 23 and 9 of a schedule
    ("a schedule with no bytes", Case(struct.pack("<BII", 0, len(ONE), 0) + ONE), "refused 22\n"),
    ("no pack and no schedule", Case(struct.pack("<BII", 0, 0, 0)), "refused 1\n"),
    ("a schedule a byte too long", schedule(ONE, 1, 5, [], [], more=b"\0"), "refused 22\n"),
    ("64 requests", schedule(ONE, 1, 5, [SEVEN] * 64, []), "events 0\n"),
    ("65 requests", schedule(ONE, 1, 5, [SEVEN] * 65, []), "refused 22\n"),
    ("1,025 events", schedule(ONE, 1, 5, [], [0x40] * 1025), "refused 22\n"),
    ("an event of kind 5", schedule(ONE, 1, 5, [SEVEN], [0x50]), "refused 23\n"),
    ("an arrival of a request that is not there", schedule(ONE, 1, 5, [SEVEN], [0x00], [1]), "refused 23\n"),
    ("a turn with an index", schedule(ONE, 1, 5, [SEVEN], [0x10], [1]), "refused 23\n"),
    ("22 is asked before 9", schedule(ONE, 0, 5, [], [], more=b"\0"), "refused 22\n"),
    ("a schedule with no partition", schedule(ONE, 0, 5, [], []), "refused 9\n"),
    ("a schedule with 257 rows", schedule(ONE, 1, 257, [], []), "refused 9\n"),
    ("slot 15, and a restart with slot 15", schedule(ONE, 1, 5, [SEVEN], [0x0F, 0x4F]), "events 2\n0 refused 15\n1 done\n"),
]

def left(case, answer, after=None, listed=None):
    """The answer, the line of the store's bytes and the lines of the worklist: `after` and `listed`, or as given where that is not said."""
    if case.store is None:
        return answer
    lines = "".join("list %d %d\n" % entry for entry in (case.listed if listed is None else listed))
    return answer + "bytes %s\n" % ((case.store if after is None else after).hex() or "-") + lines


here = os.path.dirname(os.path.abspath(__file__))
titles = [(words + "\n").encode() for words, *_ in EDGES]
stdin = b"".join(bytes([len(title)]) + title + edge[1].bytes for title, edge in zip(titles, EDGES))
# Behind the last edge: call byte 14 is no call, so that the program ends there and prints nothing of it.
none = b"no call\n"
stdin += bytes([len(none)]) + none + call(14, [8], ONE, SEVEN_BOOKED, listed=[]).bytes
assert len(stdin) <= 524288, len(stdin)  # what the program reads
with open(os.path.join(here, "stdin"), "wb") as f:
    f.write(stdin)
with open(os.path.join(here, "stdout"), "w") as f:
    for words, *edge in EDGES:
        f.write(words + "\n" + left(*edge))
