#!/usr/bin/env python3
"""Kills the C host at random places and holds what it leaves to the stock's sums and to its worklist.

kill.py STOCK FILE [ROUNDS [SEED]]: five parts, and in each some tries are killed: by SIGKILL after a random time, or by
the host itself at a place between two calls or two steps of a save (STOCK_DIES).

1. `move`. First one of amount 0 under id 1, and one under id 0, which must be refused with 24 and its words. Then moves of
   random amounts under ids 2, 3, ..; each is tried again under its id until the host ends by itself, and ROUNDS tries in
   all are to be killed. After each move that ended, nothing is under way and the rows are in order. At the end each id
   must have been counted once, the stock must add up, and a retry must change no byte.
2. `accept` and `work`, killed at each place in turn. A killed `accept` leaves its request booked and listed or neither. A
   killed `work` leaves its id listed until it is logged through, and the next `work` finishes it first. What is taken may
   have no agent yet, or one, or none any more: kills must have left all three.
3. `accept` and `work` in a random sequence, ROUNDS tries at random times and places. At the end the list must be empty.
4. `retire`, killed at each place in turn: the file is the one before or the one after. On an older file it may also be
   the one before, put in order.
5. `move .. --keep 5` on a store of 64 rows, whose book has room for twelve moves, ROUNDS tries at random times and places.
   The floor never falls, and at the end each retired move is refused with 30.

Every fourth of the random tries is given an older file, the same rows in a random order, so that some are killed while it
is put in order.

After every kill, and after every try that ended, the file must still be a right store in which nothing is lost (W-207):
all data values and the amounts under way come to 0, remainder by 2^32. `show` must say so and end with 0, and an adding up
of the file's bytes here must come to the same requests under way and the same sums. Some kills must have left an amount
other than 0 under way, since the check would be empty otherwise. The list must be right, each listed id booked, and each
request that has a slip listed or logged through (W-208).

In parts 2, 3 and 5 the store must end with the very bytes of a plain run: the same requests, each by a `move` that nobody
killed. So each accepted request is counted once, and each id has exactly its log rows, if it isn't retired.
"""
import os
import random
import subprocess
import sys
import time
from functools import partial

sys.dont_write_bytecode = True
import store

stock, path = sys.argv[1], sys.argv[2]
content, stand = (partial(act, path) for act in (store.content, store.stand))
rounds = int(sys.argv[3]) if len(sys.argv) > 3 else 200
random.seed(int(sys.argv[4]) if len(sys.argv) > 4 else 1)
IDS, SHELVES, MOST_LISTED, KEPT = 48, 40, 16, 5


def host(*words):
    """A run of the host that nobody kills; what it printed."""
    done = subprocess.run([stock, path, *words], capture_output=True, text=True)
    assert done.returncode == 0, f"{words} ended with {done.returncode}: {done.stderr}"
    return done.stdout


def shown():
    """The lines of `show`: those of rows, and the ones behind them, which say what the rows come to."""
    lines = host("show").splitlines()
    rows_shown = [line for line in lines if line.startswith(("row ", "log "))]
    return rows_shown, lines[len(rows_shown):]


def rows():
    """The data rows and log rows of each partition, as the host shows them."""
    data, log = {}, {}
    for line in shown()[0]:
        kind, *numbers = line.split()
        numbers = [int(n) for n in numbers]
        (data if kind == "row" else log)[tuple(numbers[:-1])] = numbers[-1]
    return data, log


def amount_under_way():
    """Holds the file to W-207, by what `show` says and by its bytes; the amount that is under way."""
    requests, total, amounts = store.sums(content())
    together = (total + amounts) % 2**32
    assert together == 0, f"the bytes: data and amounts under way come to {together}, not to 0"
    floor = store.floor(content())
    expected = [] if floor is None else [f"floor {floor}"]
    expected += [f"under way {ident} {amount}" for ident, amount in requests]
    expected += [f"total {total}", f"amounts under way {amounts}", f"together {together}"]
    expected += [f"list {ident} {store.MARKS[mark]}" for ident, mark in store.listed(content())]
    _, lines = shown()
    assert lines == expected, f"show says {lines}, the bytes say {expected}"
    return amounts


def is_older():
    return content() != store.in_order(content())


def make_older():
    """The file's rows in a random order, as an earlier library may have left them."""
    before = rows()
    stand(store.older(content(), lambda _, part: random.shuffle(part)))
    assert rows() == before, "an older file shows the same rows"


def attempt(words, seconds=None, place=None):
    """One run of the host, killed after so many seconds or at that place; whether it ended by itself, and what it printed."""
    environment = dict(os.environ)
    if place is not None:
        environment["STOCK_DIES"] = str(place)
    expected = f"{path}: rows put in order\n" if is_older() else ""
    child = subprocess.Popen([stock, path, *words], env=environment, stdout=subprocess.PIPE, stderr=subprocess.PIPE, text=True)
    if seconds is not None:
        time.sleep(seconds)
        child.kill()
    out, error = child.communicate()
    done = child.returncode == 0
    if child.returncode not in (0, -9, 137):
        sys.exit(f"the host ended with {child.returncode} at {words}: {error}")
    assert error == expected or (not done and error == ""), f"the host said {error!r} at {words}"
    return done, out


def attempt_killed(words, length, places):
    """An attempt that is killed at a random time or place, if it comes to it."""
    if random.choice(["time", "place"]) == "time":
        return attempt(words, seconds=random.random() * length * 1.2)
    return attempt(words, place=random.randint(1, places))


def random_request(ident):
    """FROM TO AMOUNT --id N, the words behind `move` and `accept`."""
    source, target, amount = random.randint(1, SHELVES), random.randint(1, SHELVES), random.randint(0, 2**32 - 1)
    return [str(source), str(target), str(amount), "--id", str(ident)]


def seconds_of(words):
    before = time.time()
    host(*words)
    return time.time() - before


# ---- moves ----


def check_moved(total, ident):
    """After a move: nothing under way, the rows in order, each id counted once so far."""
    assert amount_under_way() == 0, f"an amount is still under way after id {ident}"
    assert not is_older(), f"rows out of order after id {ident}"
    data, _ = rows()
    assert sum(data.values()) % 2**32 == 0, f"the stock does not add up after id {ident}"
    assert sum(v for (part, _), v in data.items() if part == 1) % 2**32 == total, f"an id is not counted once, at id {ident}"


def check_replies(replies):
    """Each id has its two log rows and no other; a retry replies the same and changes no byte."""
    _, log = rows()
    before = content()
    assert sorted(log) == sorted([(0, i, 0) for i in replies] + [(1, i, 1) for i in replies]), "log rows"
    for ident, value in replies.items():
        done, out = attempt(["retry", str(ident)])
        assert out == f"reply {ident} {log[(1, ident, 1)]}\n" and log[(1, ident, 1)] == value, f"id {ident} replies otherwise"
    assert content() == before, "a retry changed a byte"


def moves():
    host("init", "2", "256")
    length = seconds_of(["move", "1", "1", "0", "--id", "1"])
    refused = subprocess.run([stock, path, "move", "1", "1", "5", "--id", "0"], capture_output=True, text=True)
    assert (refused.returncode, refused.stderr) == (1, "refused 24: Is the id other than 0 (arrival)?\n"), refused
    killed, with_amount, ended, older, total, replies = 0, 0, 0, 0, 0, {1: 0}
    for ident in range(2, IDS + 2):
        words = ["move", *random_request(ident)]
        tries = rounds * (ident - 1) // IDS - rounds * (ident - 2) // IDS
        for _ in range(tries):
            if (killed + ended) % 4 == 3:
                make_older()
            older += is_older()
            done, _ = attempt_killed(words, length, 37)
            amount_left = amount_under_way()
            killed += not done
            with_amount += not done and amount_left != 0
            ended += done
        done, out = attempt(words)
        assert done, "without a kill the host ends by itself"
        replies[ident] = int(out.splitlines()[-1].split()[2])
        total = (total + int(words[3])) % 2**32
        check_moved(total, ident)
    check_replies(replies)
    assert with_amount > 0, "no kill left an amount under way: more rounds are needed"
    print(f"{killed} tries killed, {ended} ended before, {older} on older files; nothing was lost after any of them, "
          f"{with_amount} kills left an amount under way; {IDS + 1} ids counted once each; the stock adds up to 0")


# ---- the worklist ----


def logged():
    """The ids that have a log row in both partitions: a MOVE is then logged through."""
    _, log = rows()
    return {ident for _, ident, step in log if step == 0} & {ident for _, ident, step in log if step == 1}


def check_listed(slips):
    """The list is right, at most its first id is taken, each listed id is booked; who has a slip is listed or logged through."""
    entries = store.listed(content())
    ids = [ident for ident, _ in entries]
    _, (*_, book), _ = store.take_apart(content())
    assert len(ids) <= MOST_LISTED and ids == sorted(set(ids)), f"not in order of entry, or twice: {ids}"
    assert all(mark in (0, 1) for _, mark in entries) and not any(mark for _, mark in entries[1:]), f"marks: {entries}"
    assert {8 * ident for ident in ids} <= {key for key, _ in book}, "a listed id isn't booked"
    lost = set(slips) - set(ids) - logged()
    assert not lost, f"{lost} vanished before they were logged through"
    return entries


def check_work(out, ids):
    """What `work` prints when it ends: of each listed id, in order of entry, the reply and that it is done."""
    lines = out.splitlines()
    assert [line.split()[:2] for line in lines] == [[word, str(ident)] for ident in ids for word in ("reply", "done")], out
    assert store.listed(content()) == [] and store.agents(content()) == [], "work is left"
    for line in lines[::2]:
        assert host("reply", line.split()[1]) == line + "\n", "the log gives another reply"


def check_as_plain(requests, rows=256, keep=()):
    """The store has the bytes that a plain run of the same requests leaves, on so many rows and with these words to retire."""
    left = content()
    host("init", "2", str(rows))
    for words in requests:
        host("move", *words, *keep)
    assert content()[:-store.BEHIND] == left[:-store.BEHIND], "not the store of the plain run"


def accept_at_each_place():
    """A request is given a slip although its `accept` was killed at each place before; how many kills."""
    host("init", "2", "256")
    words, place, done = ["accept", *random_request(7)], 0, False
    while not done:
        place += 1
        done, out = attempt(words, place=place)
        entries = check_listed([7] if out else [])
        assert (entries == [(7, 0)]) == (store.take_apart(content())[1][-1] != []), "booked and not listed"
        assert out == ("accepted 7\n" if done else ""), f"the slip of a host that was killed at place {place}: {out}"
    return place - 1


def left_by_kill(entries):
    """What a killed worker left of the id that it had taken: no agent yet, an agent, or none any more."""
    if not entries or entries[0][1] == 0:
        return "nothing taken"
    agents = store.agents(content())
    assert agents in ([], [entries[0][0]]), f"{agents} in the slots, {entries} listed"
    return "an agent" if agents else "replied" if entries[0][0] in logged() else "no agent yet"


def work_at_each_place():
    """Two requests are listed and a worker is killed at each place, a fresh file each time; the next one finishes. How many
    kills, and what they left."""
    requests = [random_request(7), random_request(9)]
    host("init", "2", "256")
    for words in requests:
        host("accept", *words)
    listed, left, place, done = content(), {}, 0, False
    while not done:
        place += 1
        stand(listed)
        done, _ = attempt(["work"], place=place)
        amount_under_way()
        entries = check_listed([7, 9])
        what = left_by_kill(entries)
        left[what] = left.get(what, 0) + (not done)
        check_work(host("work"), [ident for ident, _ in entries])
        check_as_plain(requests)
    assert all(left.get(what) for what in ("no agent yet", "an agent", "replied")), f"kills left only {left}"
    return place - 1, left


def next_try(number, pending):
    """The words of the next try: the request that has no slip yet is accepted, if the list has room, or a worker works."""
    if number % 4 == 3:
        make_older()
    is_full = len(store.listed(content())) == MOST_LISTED
    return ["work"] if is_full or random.random() < 0.5 else ["accept", *pending]


def accept_and_work(length):
    """`accept` and `work` in a random sequence; how many tries were killed, and how many left an id taken."""
    host("init", "2", "256")
    requests, pending, killed, taken = [], random_request(1), 0, 0
    for number in range(rounds):
        words = next_try(number, pending)
        done, out = attempt_killed(words, length, 60 if words == ["work"] else 12)
        amount_under_way()
        if out.startswith("accepted "):
            requests.append(pending)
            pending = random_request(1 + len(requests))
        entries = check_listed(int(words[-1]) for words in requests)
        assert done is False or words != ["work"] or entries == [], "a worker that ended has left work"
        killed += not done
        taken += any(mark == 1 for _, mark in entries)
        if len(requests) == IDS:
            break
    left = [ident for ident, _ in store.listed(content())]
    # the last `accept` may have been killed behind its save, before its slip
    requests += [pending] if int(pending[-1]) in left else []
    check_work(attempt(["work"])[1], left)
    check_replies({int(words[-1]): int(host("reply", words[-1]).split()[2]) for words in requests})
    check_as_plain(requests)
    return killed, taken, len(requests)


def worklist():
    accepts = accept_at_each_place()
    works, left = work_at_each_place()
    print(f"accept killed at {accepts} places, work at {works}: of the id that it took they left {left}; the next work finished")
    host("init", "2", "256")
    host("accept", *random_request(1))
    killed, taken, ids = accept_and_work(seconds_of(["work"]))
    assert taken > 0, "no kill left an id taken: more rounds are needed"
    print(f"{killed} of {rounds} tries to accept and work killed, {taken} left an id taken; {ids} requests listed and done, "
          "the store is that of the plain run")


# ---- retiring ----


def retire_at_each_place(before, older):
    """Old requests are retired although the command was killed at each place before, with the rows in order or not. How many
    kills, and how many of them left the rows that were there before."""
    after = store.retired(before, 7)
    kills = {older: 0, before: 0, after: 0}
    for start, words in ((before, ["7"]), (before, ["--keep", "3"]), (older, ["--keep", "3"])):
        place, done = 0, False
        while not done:
            place += 1
            stand(start)
            done, out = attempt(["retire", *words], place=place)
            left = content()
            assert left == after or (not done and left in (start, before)), f"other rows, by a kill at place {place}"
            assert out == "" or left == after, f"{out} before it is on the disk"
            amount_under_way()
            kills[left] += not done
            host("retire", "--keep", "3")
            assert content() == after, f"a retire behind one that was killed at place {place}"
    assert all(kills.values()), "no kill left an older file, one in order, or a retired one"
    return sum(kills.values()), kills[older] + kills[before]


def keep_few(length):
    """Moves that retire all but the newest, each tried until it ends by itself. How many tries were killed, and how many left
    the move done and the older ones not retired yet."""
    host("init", "2", "64")
    keep, requests, killed, between, floor = ("--keep", str(KEPT)), [], 0, 0, 0
    for ident in range(1, IDS + 1):
        requests.append(random_request(ident))
        for number in range(rounds * (ident - 1) // IDS, rounds * ident // IDS):
            if number % 4 == 3:
                make_older()
            done, _ = attempt_killed(["move", *requests[-1], *keep], length, 50)
            amount_under_way()
            killed += not done
            between += not done and ident in logged() and len(store.booked(content())) == KEPT + 1
            floor, last_floor = store.floor(content()) or 0, floor
            assert floor >= last_floor, f"the floor fell from {last_floor} to {floor}"
        assert attempt(["move", *requests[-1], *keep])[0], "without a kill the host ends by itself"
        assert store.booked(content()) == list(range(max(1, ident - KEPT + 1), ident + 1)), "not the newest ones"
    left = content()
    check_as_plain(requests, 64, keep)
    stand(left)
    return killed, between, requests[:-KEPT]


def retiring():
    host("init", "2", "256")
    for ident in range(1, 9):
        host("move", *random_request(ident))
    host("accept", *random_request(9))
    before = content()
    make_older()
    kills, unchanged = retire_at_each_place(before, content())
    print(f"retire killed at {kills} places: {unchanged} kills left the rows as they were, the others retired; the next one finished")
    host("init", "2", "256")
    killed, between, retired = keep_few(seconds_of(["move", *random_request(1), "--keep", str(KEPT)]))
    assert between > 0, "no kill came between a move and its retire: more rounds are needed"
    left = content()
    for words in retired:
        refused = subprocess.run([stock, path, "move", *words], capture_output=True, text=True)
        assert (refused.returncode, refused.stderr) == (1, "refused 30: Is the id not below the floor (arrival)?\n"), refused
    assert content() == left, "a late repeat changed a byte"
    print(f"{killed} of {rounds} tries to move and retire killed, {between} between the two; {len(retired)} of {IDS} moves retired, "
          "their late repeats refused; the store is that of the plain run")


moves()
worklist()
retiring()
