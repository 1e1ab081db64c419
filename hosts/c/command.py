"""The commands of a host. With a second host each is also given to that one with the same file: it must print and end the same and
leave the same bytes."""
import struct
from subprocess import run

import store

WORDS = {
    18: "If the id is known, are workflow and arguments those booked (arrival)?",
    19: "If it is new, are five book rows free (arrival)?",
    20: "Is the id booked (retry, add, reply)?",
    24: "Is the id other than 0 (arrival)?",
    25: "Has the list at most 16 ids, none twice, each waiting or taken (add, take, done, retire)?",
    26: "If the id isn't listed, are fewer than 16 listed (add)?",
    28: "Is each smaller booked id logged through, in no slot and not on the worklist (retire)?",
    29: "Is a smaller id booked (retire)?",
    30: "Is the id not below the floor (arrival)?",
}


def refused(number):
    """What a command says and ends with that is refused."""
    return 1, "", f"refused {number}: {WORDS[number]}\n"


def request(ident, amount=5):
    """FROM TO AMOUNT --id N: shelves of the id's own."""
    return str(ident), str((1000 + ident) % 2**32), str(amount), "--id", str(ident)


def with_agent(data, ident):
    """The file with an agent of such a request in slot 3, as a start leaves it."""
    record = struct.pack("<12I", 1, ident, 0, 0, ident, 1000 + ident, 5, 0, 0, 0, 0, 0)
    at = len(data) - store.BEHIND + 3 * len(record)
    return data[:at] + record + data[at + len(record):]


class Host:
    """A host and its file, perhaps with a second host, and how many commands it was given."""

    def __init__(self, stock, path, other=None):
        self.stock, self.path, self.other, self.commands = stock, path, other, 0

    def run_of(self, program, words):
        done = run([program, self.path, *words], capture_output=True, text=True)
        return done.returncode, done.stdout, done.stderr

    def __call__(self, *words):
        """Exit code, output and errors of a command, which are those of the other host too, and so is the file that it leaves."""
        self.commands += 1
        if not self.other or words[0] == "init":
            return self.run_of(self.stock, words)
        before = store.content(self.path)
        expected = self.run_of(self.other, words), store.content(self.path)
        store.stand(self.path, before)
        said = self.run_of(self.stock, words)
        assert (said, store.content(self.path)) == expected, f"{words}: {said}, not {expected[0]}, or another file"
        return said

    def stays(self, *words):
        """A command that leaves the file's bytes as they are; what it says."""
        before = store.content(self.path)
        said = self(*words)
        assert store.content(self.path) == before, f"{words} changed the file"
        return said
