"""A host's file taken apart and put together: the rows of each partition and of the book as they stand, and behind them the slots and
the worklist."""
import os
import struct

SLOTS, LIST = 384, 132
BEHIND = SLOTS + LIST
FLOOR_KEY = 2**40
MARKS = ("waiting", "taken")


def content(path):
    with open(path, "rb") as file:
        return file.read()


def stand(path, data):
    with open(path, "wb") as file:
        file.write(data)


def written(path):
    """What changes whenever the file is written, even with the same bytes."""
    status = os.stat(path)
    return status.st_ino, status.st_mtime_ns


def take_apart(data):
    """C, for each partition and then the book its rows (stored key, value), and what is behind the store: slots and list."""
    p, c = struct.unpack_from("<BH", data)
    used = struct.unpack_from(f"<{p + 1}H", data, 3)
    keys = struct.unpack_from(f"<{c * (p + 1)}Q", data, 3 + 2 * (p + 1))
    values = struct.unpack_from(f"<{c * (p + 1)}I", data, 3 + 2 * (p + 1) + 8 * c * (p + 1))
    rows = list(zip(keys, values))
    return c, [rows[i * c:i * c + n] for i, n in enumerate(used)], data[-BEHIND:]


def floor(data):
    """The value of the floor's row of the book, or None where it has none."""
    _, (*_, book), _ = take_apart(data)
    return dict(book).get(FLOOR_KEY)


def booked(data):
    """The booked ids, by rising id."""
    _, (*_, book), _ = take_apart(data)
    return sorted({key // 8 for key, _ in book if key != FLOOR_KEY})


def retired(data, below):
    """The bytes of a file whose ids below a floor are retired: their book and log rows are gone, and the book has the floor's row."""
    c, (*partitions, book), behind = take_apart(data)
    partitions = [[row for row in rows if row[0] >= 65536 * below] for rows in partitions]
    book = [row for row in book if row[0] >= 8 * below and row[0] != FLOOR_KEY] + [(FLOOR_KEY, below)]
    return put_together(c, [*partitions, book], behind)


def listed(data):
    """The worklist's entries, (id, mark) in order of entry."""
    number, *words = struct.unpack("<33I", data[-LIST:])
    return list(zip(words[0:2 * number:2], words[1:2 * number:2]))


def agents(data):
    """The ids of the agents in the slots."""
    records = struct.iter_unpack("<12I", data[-BEHIND:-LIST])
    return [record[1] for record in records if record[0] == 1]


def with_list(data, number, *entries):
    """The file with another list: its number and the entries that stand there."""
    words = [number] + [word for entry in entries for word in entry]
    return data[:-LIST] + struct.pack(f"<{len(words)}I", *words).ljust(LIST, b"\0")


def put_together(c, parts, behind):
    """The bytes of such a file, the rows in the order in which they are given."""
    head = struct.pack("<BH", len(parts) - 1, c) + b"".join(struct.pack("<H", len(rows)) for rows in parts)
    keys = b"".join(b"".join(struct.pack("<Q", key) for key, _ in rows).ljust(8 * c, b"\0") for rows in parts)
    values = b"".join(b"".join(struct.pack("<I", value) for _, value in rows).ljust(4 * c, b"\0") for rows in parts)
    return head + keys + values + behind


def sums(data):
    """W-207's numbers: the requests under way, as (id, amount) by rising id; then the sum of all data values and that
    of the amounts under way, remainders by 2^32."""
    _, (*partitions, book), _ = take_apart(data)
    rows = [row for partition in partitions for row in partition]
    logged = {(key // 65536, key % 65536) for key, _ in rows if key < 2**63}
    amounts = sorted((key // 8, value) for key, value in book if key % 8 == 3 and key != FLOOR_KEY)
    under_way = [(ident, amount) for ident, amount in amounts if (ident, 0) in logged and (ident, 1) not in logged]
    total = sum(value for key, value in rows if key >= 2**63)
    return under_way, total % 2**32, sum(amount for _, amount in under_way) % 2**32


def in_order(data):
    """The only bytes that a file of this contents has now."""
    c, parts, behind = take_apart(data)
    return put_together(c, [sorted(rows) for rows in parts], behind)


def older(data, change):
    """The same contents as an earlier library may have left them: `change` is given each partition's number and rows, and moves them."""
    c, parts, behind = take_apart(data)
    for number, rows in enumerate(parts):
        change(number, rows)
    return put_together(c, parts, behind)
