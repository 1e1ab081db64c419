#!/usr/bin/env python3
"""Has a host open older files, whose rows do not stand by rising key.

older.py STOCK FILE [SEED]: each older file is made from one of the host's own by moving rows, keys and values, within their partitions.
The first move or retry on it must put exactly the same rows in order, say so once, and go on as with the file that was in order, byte for
byte. `show` must print the same and write nothing. A file in order must not be written by opening it, and nothing said. A store that is
wrong in another way must be refused by its question, by each command, and its file stay as it is. All of it once more with a floor row
in the book (W-209), which has its place behind all others.
"""
import random
import sys
from functools import partial
from subprocess import run

sys.dont_write_bytecode = True
import store

stock, path = sys.argv[1], sys.argv[2]
content, stand, written = (partial(act, path) for act in (store.content, store.stand, store.written))
random.seed(int(sys.argv[3]) if len(sys.argv) > 3 else 1)

# Shelves that no two moves share, so that what the rows come to does not depend on which move came first.
MOVES = [(8, 90, 50, 30), (2, 30, 70, 4), (300, 10, 20, 7), (5, 60, 80, 9), (70000, 40, 10, 1)]
WORDS = {
    9: "Are there three bytes, P 1 to 8, C 5 to 256?",
    10: "Is the store's length right?",
    11: "Is each used count at most C, each used key of a form of its partition and unlike the others there, "
    "each unused row zero, and are the used keys rising?",
    12: "Has each booked id all five rows, and is none below the floor?",
    24: "Is the id other than 0 (arrival)?",
}
PUT, NOT_YET = f"{path}: rows put in order\n", f"{path}: rows not in order yet\n"


def host(*words):
    done = run([stock, path, *words], capture_output=True, text=True)
    return done.returncode, done.stdout, done.stderr


def refused(number):
    return f"refused {number}: {WORDS[number]}\n"


def move(ident, source, target, amount):
    return host("move", str(source), str(target), str(amount), "--id", str(ident))


def made(moves):
    """A file of these moves."""
    assert host("init", "2", "32") == (0, "", "")
    for ident, *rest in moves:
        assert move(ident, *rest) == (0, f"reply {ident} {rest[-1]}\n", "")
    return content()


def swap(part, first, second):
    """Two rows of one partition change places."""
    def change(number, rows):
        if number == part:
            rows[first], rows[second] = rows[second], rows[first]
    return change


def check_older(older, ordered, shown, moved):
    assert older != ordered and store.in_order(older) == ordered
    stand(older)
    assert host("show") == (0, shown, NOT_YET), "show of an older file"
    assert content() == older, "show writes nothing"
    assert move(0, 1, 1, 5) == (1, "", PUT + refused(24)), "an older file is put in order first, whatever the command comes to"
    assert content() == ordered, "the same rows, in order"
    before = written()
    assert move(0, 1, 1, 5) == (1, "", refused(24)) and host("show") == (0, shown, ""), "nothing is said of a file in order"
    assert (content(), written()) == (ordered, before), "a file in order is not written"
    for words, after in ((("move", "1", "6", "2", "--id", "7"), moved), (("retry", "8"), ordered)):
        stand(older)
        code, out, error = host(*words)
        assert (code, out[:6], error) == (0, "reply ", PUT) and content() == after, f"{words} on an older file"


def check_wrong(name, data, number):
    stand(data)
    request = ("1", "6", "2", "--id", "7")
    only_words = ("work",), ("retry", "8"), ("reply", "8"), ("retire", "9"), ("retire", "--keep", "1"), ("show",)
    for words in (("move", *request), ("accept", *request), *only_words):
        assert host(*words) == (1, "", refused(number)) and content() == data, f"{name}, {words[0]}"


def key_twice(first, second):
    """A row gets the key of another one of partition 1."""
    def change(number, rows):
        if number == 1:
            rows[second] = (rows[first][0], rows[second][1])
    return change


def row_lost(number, rows):
    if number == 2:
        del rows[7]


def with_floor(floor):
    """The book gets a floor row."""
    def change(number, rows):
        if number == 2:
            rows.append((store.FLOOR_KEY, floor))
    return change


def check_changed(ordered, changes):
    """Older files of the same contents, and what a move leaves behind them."""
    stand(ordered)
    shown = host("show")[1]
    assert move(7, 1, 6, 2)[0] == 0
    moved = content()
    assert moved == store.in_order(moved)
    for change in changes:
        check_older(store.older(ordered, change), ordered, shown, moved)


ordered = made(MOVES)
assert ordered == store.in_order(ordered), "a host's own file is in order"
assert made(MOVES[::-1]) == ordered and made(sorted(MOVES)) == ordered, "equal contents, equal bytes"
assert host("retire", "5")[0] == 0
retired = content()
assert retired == store.in_order(retired) == store.retired(ordered, 5), "the floor's row is the last of the book"

changes = [swap(part, first, second) for part in range(3) for first, second in ((0, 1), (-2, -1), (0, -1))]
changes.append(lambda number, rows: rows.reverse())
changes.append(lambda number, rows: rows.sort(key=lambda row: (row[0] >> 63 == 0, row)))
changes += [lambda number, rows: random.shuffle(rows)] * 20
for file in (ordered, retired, store.older(ordered, with_floor(2))):
    check_changed(file, changes)

reversed_rows = store.older(ordered, lambda number, rows: rows.reverse())
wrong = 0
for data in (ordered, reversed_rows):
    for name, bad, number in (
        ("no partition", b"\0" + data[1:], 9),
        ("a byte too few", data[:-store.BEHIND - 1] + data[-store.BEHIND:], 10),
        ("a key twice, side by side", store.older(data, key_twice(3, 4)), 11),
        ("a key twice, apart", store.older(data, key_twice(0, 9)), 11),
        ("a used count above C", data[:3] + b"\x21\0" + data[5:], 11),
        ("a used row too few counted", data[:3] + b"\x09\0" + data[5:], 11),
        ("a row of the book lost", store.older(data, row_lost), 12),
        ("a booked id below the floor", store.older(data, with_floor(3)), 12),
    ):
        check_wrong(name, bad, number)
        wrong += 1
print(f"{3 * len(changes)} older files put in order, said once each; {wrong} wrong ones refused")
