#!/usr/bin/env python3
"""Has a host retire old moves, and run for ten thousand of them on one book (W-209).

retire.py STOCK FILE [OTHER [MOVES [SEED]]]: what a floor removes and leaves, what is refused (28 to 30), which floor `--keep` works
out, and then MOVES moves, 10,000 unless it says otherwise, on a store of 256 rows, each by `move .. --keep 48`. After each of them
the stock adds up, the shelves have what all moves so far come to, retired ones too, and the newest 48 are booked; a late repeat of
a retired one is refused with 30 and changes nothing. With OTHER, a second host, each command is also given to that one with the
same file: it must print and end the same and leave the same bytes.
"""
import random
import sys
from functools import partial

sys.dont_write_bytecode = True
import store
from command import Host, refused, request, with_agent

path = sys.argv[2]
content, stand = (partial(act, path) for act in (store.content, store.stand))
host = Host(sys.argv[1], path, sys.argv[3] if len(sys.argv) > 3 else None)
stays = host.stays
MOVES = int(sys.argv[4]) if len(sys.argv) > 4 else 10000
random.seed(int(sys.argv[5]) if len(sys.argv) > 5 else 1)
FILES, KEEP, SHELVES, GREATEST, DATA = 150, 48, 40, 2**32 - 1, 2**63
NOTHING = 0, "nothing to retire\n", ""


def fresh(rows=256):
    assert host("init", "2", str(rows)) == (0, "", "")


def move(*ids):
    for ident in ids:
        assert host("move", *request(ident)) == (0, f"reply {ident} 5\n", "")


def used(data):
    return sum(len(rows) for rows in store.take_apart(data)[1])


def retires(floor, *words, said=""):
    """A command that takes the floor there: exactly the rows of smaller ids are gone, and it says how many."""
    before = content()
    after = store.retired(before, floor)
    requests, rows = len(store.booked(before)) - len(store.booked(after)), used(before) - used(after)
    out = f"{said}requests retired {requests}\nrows free again {rows}\n"
    assert host(*words) == (0, out, ""), f"{words} up to {floor}"
    assert content() == after, f"{words}: other rows than those from {floor} on"


def shows(floor):
    """What `show` says of the floor, and that nothing is lost."""
    lines = stays("show")[1].splitlines()
    assert [line for line in lines if line.startswith("floor")] == ([] if floor is None else [f"floor {floor}"]), lines
    assert "together 0" in lines, lines


def check_smallest():
    """A book of five rows: the floor's row takes one of those that the only move had, so the book stays shut."""
    fresh(5)
    move(7)
    shows(None)
    retires(8, "retire", "8")
    assert used(content()) == 3, "two shelves and the floor"
    shows(8)
    assert stays("move", *request(9)) == refused(19)
    assert stays("move", *request(7)) == refused(30)


def check_floor():
    fresh()
    move(3, 5, 9)
    for floor in (0, 1, 3):
        assert stays("retire", str(floor)) == refused(29), "no smaller id is booked"
    retires(4, "retire", "4")
    shows(4)
    assert stays("retire", "4") == refused(29) and stays("retire", "2") == refused(29), "the floor only rises"
    for ident in (1, 3):
        assert stays("move", *request(ident)) == refused(30), "below the floor, booked before or not"
        assert stays("accept", *request(ident)) == refused(30)
        assert stays("retry", str(ident)) == refused(20) and stays("reply", str(ident)) == refused(20)
    assert stays("move", *request(0)) == refused(24), "24 comes first"
    move(4)
    assert stays("move", *request(5)) == (0, "reply 5 5\n", ""), "a repeat of one that is booked"
    move(GREATEST - 1, GREATEST)
    retires(GREATEST, "retire", str(GREATEST))
    assert store.booked(content()) == [GREATEST], "the greatest id is never retired"
    assert stays("retire", "--keep", "0") == NOTHING


def check_needed():
    """What is not logged through, or is on the worklist, stays (28), and with --keep so does what is newer."""
    fresh()
    move(2, 3)
    assert host("accept", *request(5)) == (0, "accepted 5\n", "")
    move(7, 8)
    listed = content()
    for data in (listed, store.with_list(listed, 0), store.with_list(listed, 1, (5, 1)), store.with_list(listed, 1, (3, 0))):
        stand(data)
        needed = 3 if store.listed(data) == [(3, 0)] else 5
        assert host("retire", "8") == refused(28), "a smaller one is needed"
        retires(needed, "retire", "--keep", "1")
        assert stays("retire", "--keep", "0") == NOTHING
    # logged through and listed again: it stays until the worker has it off the list
    stand(listed)
    assert host("work")[0] == host("accept", *request(2))[0] == 0
    assert stays("retire", "3") == refused(28) and stays("retire", "--keep", "1") == NOTHING
    assert host("work") == (0, "reply 2 5\ndone 2\n", "")
    # an agent that a killed host left is run until it replies, and then its request may go
    expected = store.retired(content(), 8)
    stand(with_agent(content(), 3))
    assert host("retire", "8") == (0, "reply 3 5\nrequests retired 4\nrows free again 27\n", "") and content() == expected


def check_wrong_list():
    fresh()
    move(3, 5)
    stand(store.with_list(content(), 2, (9, 0), (9, 0)))
    assert stays("retire", "4") == refused(25) and stays("retire", "--keep", "1") == refused(25)
    assert stays("retire", "--keep", "2") == NOTHING, "no call is made"


def logged(ident, steps):
    """The log rows of these steps of a move, each with its partition."""
    return [(step, (65536 * ident + step, random.getrandbits(32))) for step in steps]


def random_file():
    """A file with moves in all states, perhaps with a floor row, and log rows of ids that aren't booked; and the ids that must stay."""
    lowest = random.choice((0, 1, 2, 50, 10000, GREATEST - 40))
    ids = sorted(random.sample(range(lowest, lowest + 41), random.randint(0, 20)))
    steps = {ident: random.choice(((0, 1),) * 20 + ((0,), ())) for ident in ids}
    listed = random.sample(ids, min(len(ids), random.choice((0, 0, 0, 1, 2))))
    rows = [row for ident in ids for row in logged(ident, steps[ident])]
    unbooked = sorted(set(range(max(0, lowest - 20), min(GREATEST, lowest + 41))) - set(ids))
    rows += [row for ident in random.sample(unbooked, 5) for row in logged(ident, random.choice(((0,), (1,), (0, 1))))]
    shelves = [(part, (DATA + shelf, random.getrandbits(32))) for part in (0, 1) for shelf in range(random.randint(0, 9))]
    parts = [sorted(row for part, row in rows + shelves if part == partition) for partition in (0, 1)]
    book = [(8 * ident + j, word) for ident in ids for j, word in enumerate((0, ident, 1000, 5, 0))]
    floor = random.choice((None, 0, random.randint(0, ids[0] if ids else GREATEST)))
    book += [] if floor is None else [(store.FLOOR_KEY, floor)]
    data = store.put_together(256, [*parts, book], bytes(store.BEHIND))
    needed = {ident for ident in ids if steps[ident] != (0, 1) or ident == GREATEST} | set(listed)
    return store.with_list(data, len(listed), *((ident, 0) for ident in listed)), ids, needed


def check_random():
    """The floor that `--keep` works out, of files in all states; how many of them had something to retire."""
    with_some = 0
    for _ in range(FILES):
        data, ids, needed = random_file()
        keep = random.choice((0, 1, 2, 5, 12, 20, GREATEST))
        newest = ids[-keep:] if keep else []
        floor = min([*newest, *needed, max(ids, default=0) + 1])
        stand(data)
        if any(ident < floor for ident in ids):
            with_some += 1
            retires(floor, "retire", "--keep", str(keep))
        else:
            assert stays("retire", "--keep", str(keep)) == NOTHING, f"keep {keep} of {ids}, needed {needed}"
    return with_some


def late(words):
    """A repeat of a retired move, in whatever way, changes nothing."""
    ident = words[-1]
    other_amount = [*words[:2], str(int(words[2]) ^ 1), *words[3:]]
    for again in (words, [*words, "--keep", str(KEEP)], other_amount):
        assert stays("move", *again) == refused(30), f"{again} is below the floor"
    assert stays("accept", *words) == refused(30)
    assert stays("retry", ident) == refused(20) and stays("reply", ident) == refused(20)


def moved(shelves, ident):
    """One more move, which is counted here on the shelves; its words and its reply."""
    source, target, amount = random.randint(1, SHELVES), random.randint(1, SHELVES), random.getrandbits(32)
    for part, shelf, change in ((0, source, -amount), (1, target, amount)):
        key = part, DATA + shelf
        shelves[key] = (shelves.get(key, 0) + change) % 2**32
    return [str(source), str(target), str(amount), "--id", str(ident)], f"reply {ident} {shelves[1, DATA + target]}\n"


def check_adds_up(shelves, newest, first):
    """What the file has behind a move: the data of all moves so far, the newest ones and their log rows, and nothing under way."""
    data = content()
    _, (*partitions, book), _ = store.take_apart(data)
    assert store.sums(data) == ([], 0, 0), "the stock does not add up"
    assert {(part, key): value for part in (0, 1) for key, value in partitions[part] if key >= DATA} == shelves, "shelves"
    for step in (0, 1):
        assert [key for key, _ in partitions[step] if key < DATA] == [65536 * ident + step for ident in newest], "log rows"
    assert store.booked(data) == newest and len(book) == 5 * len(newest) + (newest[0] != first), "book rows"
    assert store.floor(data) == (None if newest[0] == first else newest[0]), "the floor"


def check_many():
    """Many moves under rising ids; how many late repeats of retired ones there were."""
    fresh()
    shelves, requests, repeats, ident = {}, [], 0, 0
    for number in range(MOVES):
        ident += random.randint(1, 3)
        words, reply = moved(shelves, ident)
        said = f"requests retired 1\nrows free again {6 if number == KEEP else 7}\n" if number >= KEEP else ""
        assert host("move", *words, "--keep", str(KEEP)) == (0, reply + said, ""), f"move {number}"
        requests.append((words, reply))
        newest = [int(words[-1]) for words, _ in requests[-KEEP:]]
        check_adds_up(shelves, newest, int(requests[0][0][-1]))
        if number >= KEEP and number % 100 == 0:
            late(random.choice(requests[:-KEEP])[0])
            repeats += 1
            again, its_reply = random.choice(requests[-KEEP:])
            assert stays("move", *again, "--keep", str(KEEP)) == (0, its_reply, ""), "a repeat of a kept one has its reply"
            shows(newest[0])
    return repeats


check_smallest()
check_floor()
check_needed()
check_wrong_list()
with_some = check_random()
repeats = check_many()
both = ", the same by both hosts" if host.other else ""
print(f"{MOVES} moves on a book of 256 rows, and the stock adds up; {repeats} late repeats of retired moves refused; {with_some} of "
      f"{FILES} files had something to retire; {host.commands} commands{both}")
