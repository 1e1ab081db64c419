#!/usr/bin/env python3
"""Has a host add up files with many requests under way, and files that do not come to 0 (W-207).

sums.py STOCK FILE [SEED]: the files are made here, as moves leave them that were cut at different places: some
requests are only booked, some are under way, some are through. `show` must name exactly those under way by rising
id, also where the rows stand in no order, add up right and end with 0. Where a data value of any partition is one
higher, it must say so in one line behind its sums and end with 1. The book's floor row, which some have, is shown as
the floor and is in no sum.
"""
import random
import sys
from subprocess import run

sys.dont_write_bytecode = True
import store

stock, path = sys.argv[1], sys.argv[2]
random.seed(int(sys.argv[3]) if len(sys.argv) > 3 else 1)
FILES, C, DATA, SHELF = 20, 256, 2**63, 40
NOT_YET = f"{path}: rows not in order yet\n"


def moved(requests, step, sign):
    """A partition of these requests (id: amount): the log row of the step for each, and one shelf with all amounts."""
    shelf = (DATA + SHELF, sign * sum(requests.values()) % 2**32)
    return sorted((65536 * ident + step, random.getrandbits(32)) for ident in requests) + [shelf]


def made(booked, under_way, through, floor):
    """A file of three partitions, of which moves use two; with a floor row unless it is None."""
    book = []
    for ident, amount in sorted({**booked, **under_way, **through}.items()):
        book += [(8 * ident + j, word) for j, word in enumerate((0, SHELF, SHELF, amount, 0))]
    book += [] if floor is None else [(store.FLOOR_KEY, floor)]
    parts = [moved({**under_way, **through}, 0, -1), moved(through, 1, 1), [], book]
    return store.put_together(C, parts, bytes(store.BEHIND))


def one_higher(part):
    """The last data value of a partition becomes one higher, or a shelf appears where none was."""
    def change(number, rows):
        if number == part:
            key, value = rows.pop() if rows else (DATA + SHELF, 0)
            rows.append((key, (value + 1) % 2**32))
    return change


def check(data, code, sums, error):
    """What `show` prints behind the rows, and ends with."""
    with open(path, "wb") as file:
        file.write(data)
    done = run([stock, path, "show"], capture_output=True, text=True)
    lines = [line for line in done.stdout.splitlines() if not line.startswith(("row ", "log "))]
    assert (done.returncode, lines, done.stderr) == (code, sums, error), f"{done}, not {sums}"


def random_requests():
    """The requests that are only booked, those under way and those through, each as id: amount."""
    # 8192 has the log key of step 1 of id 1 in the book, which is no partition: 1 is under way all the same
    booked, under_way, through = {8192: 5}, {1: 7}, {}
    for ident in random.sample([2**32 - 1, 2**31, *range(2, 100), *range(16384, 2**20, 8192)], random.randint(0, 48)):
        amount = random.choice((random.getrandbits(32), 2**32 - 1, 0))
        random.choice((booked, under_way, through))[ident] = amount
    return booked, under_way, through


def lines_of(floor, under_way, total, amounts):
    """The lines that `show` must print behind the rows."""
    lines = [] if floor is None else [f"floor {floor}"]
    lines += [f"under way {ident} {amount}" for ident, amount in under_way]
    return lines + [f"total {total}", f"amounts under way {amounts}", f"together {(total + amounts) % 2**32}"]


named_in_all = 0
for _ in range(FILES):
    booked, under_way, through = random_requests()
    # the least id is 1
    floor = random.choice((None, 0, 1))
    data = made(booked, under_way, through, floor)
    named, amounts = sorted(under_way.items()), sum(under_way.values()) % 2**32
    total = -amounts % 2**32
    named_in_all += len(named)
    check(data, 0, lines_of(floor, named, total, amounts), "")
    older = store.older(data, lambda _, rows: random.shuffle(rows))
    check(older, 0, lines_of(floor, named, total, amounts), NOT_YET)
    assert store.sums(data) == store.sums(older) == (named, total, amounts), "the adding up of store.py"
    for part in range(3):
        line = f"{path}: data and amounts under way come to 1, not to 0\n"
        check(store.older(data, one_higher(part)), 1, lines_of(floor, named, (total + 1) % 2**32, amounts), line)
print(f"{FILES} files added up, with {named_in_all} requests under way; {3 * FILES} files that come to 1 noticed")
