#!/usr/bin/env python3
"""Has a host accept moves, work them off and tell their replies from the log (W-208).

worklist.py STOCK FILE [OTHER]: slips, the order of entry, ids that are listed already, a full list (26), wrong lists (25),
what a killed worker leaves, and files of an earlier host, which have no list. With OTHER, a second host, each command is
also given to that one with the same file: it must print and end the same and leave the same bytes.
"""
import sys
from functools import partial

sys.dont_write_bytecode = True
import store
from command import Host, refused, request, with_agent

path = sys.argv[2]
content, stand, written = (partial(act, path) for act in (store.content, store.stand, store.written))
other = sys.argv[3] if len(sys.argv) > 3 else None
host = Host(sys.argv[1], path, other)
stays = host.stays
MOST_LISTED, WAITING, TAKEN = 16, 0, 1


def accept(*ids):
    for ident in ids:
        assert host("accept", *request(ident)) == (0, f"accepted {ident}\n", "")


def works(*ids):
    """`work` finishes exactly these, in this sequence."""
    assert host("work") == (0, "".join(f"reply {ident} 5\ndone {ident}\n" for ident in ids), "")
    assert store.listed(content()) == [] and store.agents(content()) == []


def lists(*entries):
    """What stands in the list, by the file's bytes and by `show`."""
    assert store.listed(content()) == list(entries), f"{store.listed(content())}, not {entries}"
    lines = [line for line in stays("show")[1].splitlines() if line.startswith("list ")]
    assert lines == [f"list {ident} {store.MARKS[mark]}" for ident, mark in entries], lines


def fresh():
    assert host("init", "2", "256") == (0, "", "")


def check_slips():
    fresh()
    lists()
    before = written()
    works()
    assert other or written() == before, "no work, and the file is written"
    accept(7, 3)
    lists((7, WAITING), (3, WAITING))
    assert store.agents(content()) == [], "accept leaves no agent"
    assert stays("accept", *request(7)) == (0, "accepted 7\n", ""), "a listed id"
    assert stays("accept", *request(7, 6)) == refused(18)
    assert stays("accept", *request(0)) == refused(24)
    assert stays("reply", "7") == (0, "not yet\n", "")
    assert stays("reply", "8") == refused(20)
    works(7, 3)
    assert stays("reply", "7") == (0, "reply 7 5\n", "")


def check_again():
    """A request that is done may be accepted again: its log has the reply, and no row changes."""
    fresh()
    accept(7)
    works(7)
    finished = content()
    accept(7)
    lists((7, WAITING))
    assert stays("reply", "7") == (0, "reply 7 5\n", "")
    works(7)
    assert content() == finished
    # what a move did, and what a retry does of a listed one, is found in the log too
    assert host("move", *request(4)) == (0, "reply 4 5\n", "")
    accept(9, 4)
    assert host("retry", "9") == (0, "reply 9 5\n", "")
    lists((9, WAITING), (4, WAITING))
    works(9, 4)


def check_full():
    fresh()
    ids = range(30, 30 - MOST_LISTED, -1)
    accept(*ids)
    assert stays("accept", *request(99)) == refused(26), "the seventeenth"
    assert stays("retry", "99") == refused(20), "it isn't booked either"
    assert stays("accept", *request(30)) == (0, "accepted 30\n", ""), "a listed one has its place"
    works(*ids)
    accept(99)
    works(99)


def check_killed():
    """What a killed worker leaves: an id taken, with an agent or without one."""
    fresh()
    accept(7, 3, 5)
    listed = content()
    taken = store.with_list(listed, 3, (7, TAKEN), (3, WAITING), (5, WAITING))
    for left in (taken, with_agent(taken, 7)):
        stand(left)
        lists((7, TAKEN), (3, WAITING), (5, WAITING))
        works(7, 3, 5)
        stand(left)
        # another command has all waiting again, and leaves the worker's agent to the next worker
        assert host("move", *request(8)) == (0, "reply 8 5\n", "")
        lists((7, WAITING), (3, WAITING), (5, WAITING))
        works(7, 3, 5)
    # an agent of an id that isn't listed is finished by the next command, whatever it is
    stand(with_agent(store.with_list(listed, 2, (7, WAITING), (5, TAKEN)), 3))
    assert host("accept", *request(8)) == (0, "reply 3 5\naccepted 8\n", "")
    works(7, 5, 8)


def check_wrong():
    """A wrong list is refused by accept and work, and no command touches it."""
    fresh()
    accept(7, 3)
    right = content()
    seventeen = [(ident, WAITING) for ident in range(MOST_LISTED)]
    wrong = [(17, *seventeen), (2**32 - 1,), (2, (7, TAKEN), (7, WAITING)), (2, (7, 2), (3, TAKEN))]
    for number, *entries in wrong:
        stand(store.with_list(right, number, *entries))
        for words in (("accept", *request(7)), ("work",)):
            assert host(*words) == refused(25), f"{words} with {number} {entries}"
        assert host("move", *request(8)) == (0, "reply 8 5\n", "")
        assert content()[-store.LIST:] == store.with_list(right, number, *entries)[-store.LIST:], "a wrong list is touched"
    assert stays("show")[1].splitlines()[-2:] == ["list 7 2", "list 3 taken"]
    return len(wrong)


def check_earlier():
    """An earlier host's file ends behind the slots: its list is empty."""
    fresh()
    accept(7)
    works(7)
    now = store.with_list(content(), 0)
    stand(now)
    shown, reply = stays("show"), stays("reply", "7")
    earlier = now[:-store.LIST]
    stand(earlier)
    assert (stays("show"), stays("reply", "7")) == (shown, reply)
    works()
    assert content() == earlier, "no work, and the file is written"
    assert host("retry", "7") == (0, "reply 7 5\n", "") and content() == now, "the first save writes the list"
    stand(earlier)
    accept(3)
    lists((3, WAITING))
    works(3)
    # rows in no order and a list: both are kept
    accept(5)
    stand(store.older(content(), lambda number, rows: rows.reverse()))
    assert host("work") == (0, "reply 5 5\ndone 5\n", f"{path}: rows put in order\n")


check_slips()
check_again()
check_full()
check_killed()
wrong = check_wrong()
check_earlier()
both = ", the same by both hosts" if other else ""
print(f"{host.commands} commands with a worklist{both}; {wrong} wrong lists refused")
