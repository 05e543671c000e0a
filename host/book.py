"""The desk's program on images that are damaged in each way, on both kinds of drive: one line for each, as it has to
be, and its exit status; the sizes and the free space that it tells, and its lists of files; what it mends and what it
packs, to the byte; what it says of two books.

book.py FOLDER BOOK..

BOOK.. is the command of book. FOLDER is for the images. Exit status: 0 if all was well, 1 at the first fault."""

import os
import subprocess
import sys

ENTRY = 32
DONE, NOT_SO, FAILED = 0, 1, 2


class Kind:
    def __init__(self, block, blocks, entries, width):
        self.block, self.blocks, self.entries, self.width = block, blocks, entries, width
        self.numbers = 16 // width

    def length(self):
        return self.block * self.blocks


SMALL = Kind(1024, 64, 64, 1)
LARGE = Kind(2048, 300, 128, 2)


def size_told(records):
    return f"{records} record{'' if records == 1 else 's'}, {128 * records} bytes"


def eleven(text):
    name, _, kind = text.partition(".")
    return (name.ljust(8) + kind.ljust(3)).encode()


def entry(user, name, extent=0, count=1):
    """An entry without blocks."""
    return bytearray([user]) + eleven(name) + bytes([extent % 32, 0, extent // 32, count]) + bytes(16)


class Image:
    """An image with entries of three files: BUDGET.DAT of user 3 in the entries 5 and 9, and others."""

    def __init__(self, kind):
        self.kind = kind
        self.bytes = bytearray(b"\xe5") * kind.length()
        self.put(5, entry(3, "BUDGET.DAT", 0, 128), {0: 44, 1: 45})
        self.put(9, entry(3, "BUDGET.DAT", 33, 7), {0: 46})
        self.put(0, entry(0, "ORDERS"), {0: 47})

    def put(self, at, bytes_of, blocks=None):
        self.bytes[ENTRY * at : ENTRY * (at + 1)] = bytes_of
        for index, block in (blocks or {}).items():
            self.name_block(at, index, block)
        return self

    def name_block(self, at, index, block):
        to = ENTRY * at + 16 + self.kind.width * index
        self.bytes[to : to + self.kind.width] = block.to_bytes(self.kind.width, "little")
        return self

    def poke(self, at, offset, byte):
        self.bytes[ENTRY * at + offset] = byte
        return self


def damages(kind):
    """What is done to an image, and the line that has to be said."""
    last, past = kind.entries - 1, kind.blocks
    range_of = f"the drive has 2 to {past - 1} for files"
    first_byte = "neither a user, 0 to 15, nor E5h for an empty entry"
    no_name = "which no legal name has there"
    budget = "BUDGET.DAT of user 3"
    image = lambda: Image(kind)
    yield image(), "sound"
    yield image().poke(5, 0, 16), f"entry 5: its first byte is 10h, {first_byte}"
    yield image().put(last, entry(255, "A")), f"entry {last}: its first byte is FFh, {first_byte}"
    yield image().poke(5, 1, 32), f"entry 5, of user 3: byte 1 of its name is 20h, {no_name}"
    yield image().poke(5, 3, 0xBF), f"entry 5, of user 3: byte 3 of its name is BFh, {no_name}"
    yield image().poke(5, 11, 0x7F), f"entry 5, of user 3: byte 11 of its name is 7Fh, {no_name}"
    yield image().poke(9, 12, 32), f"entry 9, {budget}: its ex is 32, over 31"
    yield image().poke(9, 14, 64), f"entry 9, {budget}: its module is 64, over 63"
    yield image().poke(9, 15, 129), f"entry 9, {budget}: its record count is 129, over 128"
    yield image().name_block(5, 3, 1), f"entry 5, {budget}: block 1 out of range, {range_of}"
    yield image().name_block(9, 7, past), f"entry 9, {budget}: block {past} out of range, {range_of}"
    yield image().name_block(9, 7, 44), f"entry 9, {budget}: block 44 named before, by entry 5"
    yield image().name_block(9, 7, 47), f"entry 9, {budget}: block 47 named before, by entry 0"
    yield image().name_block(9, 7, 46), f"entry 9, {budget}: block 46 named before, by the entry itself"
    yield (
        image().put(17, entry(3, "BUDGET.NEW", 0, 1), {2: 44}),
        "entry 17, BUDGET.NEW of user 3: block 44 named before, by entry 5",
    )
    yield (
        image().put(2, entry(0, "A"), {0: 46}),
        f"entry 9, {budget}: block 46 named before, by entry 2",
    )
    yield (
        image().put(17, entry(3, "BUDGET.DAT", 33)).poke(17, 2, ord("U") + 128),
        f"entry 17, {budget}: extent 33 named before, by entry 9",
    )
    yield image().poke(5, 0, 0xE5), f"entry 9, {budget}: extent 33 of a file without an extent 0"
    yield (
        image().put(last, entry(15, "A B.C", 2047)),
        f"entry {last}, A B.C of user 15: extent 2047 of a file without an extent 0",
    )
    # Two things wrong: the lower entry, in it the earlier reason, and a missing extent 0 last of all.
    yield image().name_block(5, 3, 44).poke(9, 0, 77), f"entry 5, {budget}: block 44 named before, by the entry itself"
    yield image().name_block(5, 3, 44).name_block(5, 4, 1), f"entry 5, {budget}: block 1 out of range, {range_of}"
    yield image().put(1, entry(1, "TAIL", 4)).poke(9, 14, 64), f"entry 9, {budget}: its module is 64, over 63"


def lengths():
    for length in (0, 1, 2048, 65535, 65537, 262145, 256 * 2048, 4096 * 2048 - 1):
        yield bytes(length), f"{length} bytes, no drive's length"
    for length in (4096 * 2048 + 1, 4097 * 2048):
        yield bytes(length), "over 8388608 bytes, longer than any drive"


class Desk:
    def __init__(self, folder, command):
        self.folder, self.command, self.images = folder, command, 0

    def keep(self, content):
        path = os.path.join(self.folder, f"image-{self.images}")
        self.images += 1
        with open(path, "wb") as stream:
            stream.write(content)
        return path

    def new(self):
        """A path at which there is nothing yet."""
        self.images += 1
        return os.path.join(self.folder, f"new-{self.images}")

    def says(self, words, lines, status, errors=""):
        done = subprocess.run([*self.command, *words], capture_output=True, text=True)
        said = (done.stdout.splitlines(), done.returncode, done.stderr)
        if said != (lines, status, errors):
            for got, wanted in zip(said[0] + [""] * len(lines), lines + [""] * len(said[0])):
                if got != wanted:
                    print(f"FAULT: said {got!r}, not {wanted!r}")
            print(f"FAULT: book {' '.join(words)[:80]}: exit status {done.returncode}, to be {status} {done.stderr}")
            sys.exit(1)

    def has_not_made(self, path):
        if os.path.exists(path):
            print(f"FAULT: {path} was made of an image that is not sound")
            sys.exit(1)

    def has_kept(self, path, content):
        """What it looks at stays as it was."""
        with open(path, "rb") as stream:
            if stream.read() != content:
                print(f"FAULT: {path} has changed")
                sys.exit(1)


def check(desk):
    kept = [(desk.keep(image.bytes), line) for kind in (SMALL, LARGE) for image, line in damages(kind)]
    kept += [(desk.keep(content), line) for content, line in lengths()]
    all_lines = [f"{path}: {line}" for path, line in kept]
    desk.says(["check", *(path for path, _ in kept)], all_lines, NOT_SO)
    sound = [line for line in all_lines if line.endswith(": sound")]
    sound_paths = [path for path, line in kept if line == "sound"]
    desk.says(["check", *sound_paths], sound, DONE)
    (bad, why), missing = kept[1], os.path.join(desk.folder, "none")
    desk.says(["check", sound_paths[0], bad], [f"{sound_paths[0]}: sound", f"{bad}: {why}"], NOT_SO)
    for unreadable in (missing, desk.folder):
        lines = [f"{bad}: {why}", f"{unreadable}: cannot be read", f"{sound_paths[0]}: sound"]
        desk.says(["check", bad, unreadable, sound_paths[0]], lines, FAILED)
    for (path, _), content in zip(kept, (image.bytes for kind in (SMALL, LARGE) for image, _ in damages(kind))):
        desk.has_kept(path, content)


def sizes(desk, kind):
    """BUDGET.DAT's highest extent is 33 and has 7 records. FALLING's stands before its others, with the least count."""
    image = Image(kind)
    image.put(1, entry(7, "FALLING", 64, 9)).put(2, entry(7, "FALLING", 31, 128)).put(3, entry(7, "FALLING", 0, 127))
    image.put(4, entry(0, "LAST", 2047, 128)).put(6, entry(0, "LAST", 0, 0)).put(7, entry(0, "NIL.X", 0, 0))
    path = desk.keep(image.bytes)

    def line(file, user, records):
        return f"{path}: {file} of user {user}: {size_told(records)}"

    known = {
        "3:BUDGET.DAT": line("BUDGET.DAT", 3, 128 * 33 + 7),
        "03:budget.dat": line("budget.dat", 3, 128 * 33 + 7),
        "7:FALLING": line("FALLING", 7, 128 * 64 + 9),
        "LAST": line("LAST", 0, 262144),
        "0:LAST": line("LAST", 0, 262144),
        "NIL.X": line("NIL.X", 0, 0),
        "ORDERS": line("ORDERS", 0, 1),
    }
    desk.says(["size", path, *known], list(known.values()), DONE)
    for word, name, user in (("BUDGET.DAT", "BUDGET.DAT", 0), ("15:LAST", "LAST", 15), ("NIL", "NIL", 0)):
        missing = f"{path}: {name} of user {user}: There is no such file."
        desk.says(["size", path, word], [missing], NOT_SO)
        desk.says(["size", path, word, "LAST"], [missing, known["LAST"]], NOT_SO)
    for word in ("16:LAST", "A:LAST", ":LAST", "003:LAST"):
        desk.says(["size", path, word, "LAST"], [f"{word}: A user is a number from 0 to 15.", known["LAST"]], FAILED)
    long = "A file name has at most eight characters before the dot."
    desk.says(["size", path, "NINELETTE"], [f"NINELETTE: {long}"], FAILED)
    desk.says(["size", path, "3:"], ["3:: A file name has at least one character before the dot."], FAILED)
    bad = desk.keep(Image(kind).poke(9, 15, 129).bytes)
    desk.says(
        ["size", bad, "ORDERS", "LAST"],
        [f"{bad}: entry 9, BUDGET.DAT of user 3: its record count is 129, over 128"],
        NOT_SO,
    )
    desk.has_kept(path, image.bytes)


def lists(desk, kind):
    """Files in the order of their extents 0, whatever stands before them; each once, with extent 0's attributes."""
    last = kind.entries - 1
    image = Image(kind)
    image.put(1, entry(7, "FALLING", 64, 9)).put(2, entry(7, "FALLING", 31, 128)).put(3, entry(7, "FALLING", 0, 127))
    image.put(last - 1, entry(0, "LAST", 2047, 128)).put(last, entry(0, "LAST", 0, 0)).put(7, entry(0, "NIL.X", 0, 0))
    image.put(8, entry(15, "A B.C D", 0, 3)).put(10, entry(3, "ZERO.TXT", 0, 0)).put(11, entry(0, "ZERO.TXT", 0, 5))
    for at, byte in ((0, 9), (7, 10), (7, 2), (last, 11), (last - 1, 1), (1, 9), (10, 8)):
        image.poke(at, byte, image.bytes[ENTRY * at + byte] + 128)
    path = desk.keep(image.bytes)

    def line(file, user, records, *attributes):
        told = [f"{path}: {file} of user {user}: {size_told(records)}", *attributes]
        return ", ".join(told)

    of_users = {
        0: [
            line("ORDERS", 0, 1, "read-only"),
            line("NIL.X", 0, 0, "f2", "system"),
            line("ZERO.TXT", 0, 5),
            line("LAST", 0, 262144, "archive"),
        ],
        3: [line("BUDGET.DAT", 3, 128 * 33 + 7), line("ZERO.TXT", 3, 0, "f8")],
        7: [line("FALLING", 7, 128 * 64 + 9)],
        15: [line("A B.C D", 15, 3)],
    }
    desk.says(["list", path], [one for lines in of_users.values() for one in lines], DONE)
    for user in range(16):
        desk.says(["list", path, str(user)], of_users.get(user, [f"{path}: no files"]), DONE)
    desk.says(["list", path, "03"], of_users[3], DONE)
    for word in ("16", "x", "", "3:", "-1", "003"):
        desk.says(["list", path, word], [f"{word}: A user is a number from 0 to 15."], FAILED)
    empty = desk.keep(bytes([0xE5]) * kind.length())
    desk.says(["list", empty], [f"{empty}: no files"], DONE)
    full = Image(kind)
    names = [f"F{at:03}.DAT" for at in range(kind.entries)]
    for at, name in enumerate(names):
        full.put(at, entry(at % 2, name, 0, at))
    full_path = desk.keep(full.bytes)
    desk.says(
        ["list", full_path, "1"],
        [f"{full_path}: {names[at]} of user 1: {size_told(at)}" for at in range(1, kind.entries, 2)],
        DONE,
    )
    bad = desk.keep(Image(kind).poke(9, 15, 129).bytes)
    why = f"{bad}: entry 9, BUDGET.DAT of user 3: its record count is 129, over 128"
    desk.says(["list", bad], [why], NOT_SO)
    desk.says(["list", bad, "0"], [why], NOT_SO)
    desk.has_kept(path, image.bytes)


def free_line(path, kind, blocks, used):
    """What is said of an image of so many blocks, `used` of them by files."""
    free = blocks - 2 - used
    records = free * (kind.block // 128)
    return f"{path}: {free} of {blocks - 2} blocks free, {records} records, {128 * records} bytes"


def frees(desk, kind):
    """The three blocks of a small drive, or the 257 of a large one, are no multiple of eight."""
    least = 3 if kind is SMALL else 257
    bare = bytes([0xE5]) * (kind.block * least)
    last = bytearray(bare)
    last[:ENTRY] = entry(0, "LAST")
    last[16 : 16 + kind.width] = (least - 1).to_bytes(kind.width, "little")
    gone = bytes([0xE5]) + last[1:]
    some, empty, full, emptied = (desk.keep(content) for content in (Image(kind).bytes, bare, last, gone))
    lines = [
        free_line(some, kind, kind.blocks, 4),
        free_line(empty, kind, least, 0),
        free_line(full, kind, least, 1),
        free_line(emptied, kind, least, 0),
    ]
    desk.says(["free", some, empty, full, emptied], lines, DONE)
    bad, missing = desk.keep(Image(kind).poke(9, 15, 129).bytes), os.path.join(desk.folder, "none")
    why = f"{bad}: entry 9, BUDGET.DAT of user 3: its record count is 129, over 128"
    desk.says(["free", bad, some], [why, lines[0]], NOT_SO)
    desk.says(["free", some, missing, bad], [lines[0], f"{missing}: cannot be read", why], FAILED)
    desk.has_kept(some, Image(kind).bytes)


def rules(desk, kind):
    """A module of 15 is sound by both rules, one of 16 by that of MP/M II alone."""
    low, high = (desk.keep(Image(kind).poke(9, 14, module).bytes) for module in (15, 16))
    why = f"{high}: entry 9, BUDGET.DAT of user 3: its module is 16, over 15"
    desk.says(["check", low, high], [f"{low}: sound", f"{high}: sound"], DONE)
    desk.says(["check", "--rule", "2.2", low, high], [f"{low}: sound", why], NOT_SO)
    for verb in (["size", "--rule", "2.2", high, "3:BUDGET.DAT"], ["list", "--rule", "2.2", high]):
        desk.says(verb, [why], NOT_SO)
    desk.says(["free", "--rule", "2.2", high, low], [why, free_line(low, kind, kind.blocks, 4)], NOT_SO)
    desk.says(["size", "--rule", "2.2", low, "3:BUDGET.DAT"], [f"{low}: BUDGET.DAT of user 3: {size_line(15)}"], DONE)
    desk.says(["size", high, "3:BUDGET.DAT"], [f"{high}: BUDGET.DAT of user 3: {size_line(16)}"], DONE)
    new = desk.new()
    lines = [
        f"entry 9, BUDGET.DAT of user 3: emptied, its module is 16, over 15",
        f"{high}: 1 entry emptied, 0 block numbers zeroed in 0 entries; sound now, in {new}",
    ]
    desk.says(["salvage", "--rule", "2.2", high, "-o", new], lines, NOT_SO)
    desk.says(["pack", "--rule", "2.2", high, "-o", desk.new()], [why], NOT_SO)


def size_line(module):
    """Extent 1 of the module, with seven records of it."""
    records = 128 * (1 + 32 * module) + 7
    return f"{records} records, {128 * records} bytes"


class Mended:
    """A damaged image, what it has to become, and the lines that have to be said of its entries."""

    def __init__(self, kind):
        self.before, self.after, self.lines = Image(kind), Image(kind), {}
        self.emptied, self.zeroed = 0, []

    def empty(self, at, line):
        """What stands in the entry by now is emptied."""
        self.after.bytes[ENTRY * at : ENTRY * (at + 1)] = self.before.bytes[ENTRY * at : ENTRY * (at + 1)]
        self.after.poke(at, 0, 0xE5)
        self.lines[at] = f"entry {at}{line}"
        self.emptied += 1

    def zero(self, at, name, numbers):
        """Block numbers {index: number} are put there, and go."""
        for index, number in numbers.items():
            self.before.name_block(at, index, number)
            self.after.name_block(at, index, 0)
        many = f"{len(numbers)} block number{'s' * (len(numbers) > 1)} zeroed"
        told = ", ".join(str(number) for _, number in sorted(numbers.items()))
        self.lines[at] = f"entry {at}, {name}: {many}: {told}"
        self.zeroed.append(len(numbers))

    def put(self, at, bytes_of, blocks=None):
        """An entry that is there before and after."""
        self.before.put(at, bytes_of, blocks)
        self.after.put(at, bytes_of, blocks)

    def totals(self):
        def many(number, one, more):
            return f"{number} {one if number == 1 else more}"

        emptied = many(self.emptied, "entry emptied", "entries emptied")
        zeroed = many(sum(self.zeroed), "block number zeroed", "block numbers zeroed")
        return f"{emptied}, {zeroed} in {many(len(self.zeroed), 'entry', 'entries')}"


def one_of_each(kind):
    """Every sort of damage in one book. Entry 20 stays: the one before it of its extent is emptied."""
    last, past = kind.entries - 1, kind.blocks
    mended = Mended(kind)
    before = mended.before
    before.put(1, entry(16, "USER"))
    mended.empty(1, ": emptied, its first byte is 10h, neither a user, 0 to 15, nor E5h for an empty entry")
    before.put(2, entry(4, "NAME")).poke(2, 4, ord("?"))
    mended.empty(2, ", of user 4: emptied, byte 4 of its name is 3Fh, which no legal name has there")
    before.put(3, entry(0, "EX.X"), {0: 50}).poke(3, 12, 99)
    mended.empty(3, ", EX.X of user 0: emptied, its ex is 99, over 31")
    before.put(4, entry(0, "MODULE")).poke(4, 14, 64)
    mended.empty(4, ", MODULE of user 0: emptied, its module is 64, over 63")
    before.put(19, entry(0, "COUNT", 0, 255))
    mended.empty(19, ", COUNT of user 0: emptied, its record count is 255, over 128")
    mended.put(20, entry(0, "COUNT", 0, 5), {0: 50})
    before.put(21, entry(3, "BUDGET.DAT", 33), {0: 46}).poke(21, 2, ord("U") + 128)
    mended.empty(21, ", BUDGET.DAT of user 3: emptied, extent 33 named before, by entry 9")
    before.put(22, entry(0, "PRICES.DAT", 1), {0: 51})
    mended.empty(22, ", PRICES.DAT of user 0: emptied, its extent 0 is missing")
    before.put(last, entry(0, "PRICES.DAT", 4))
    mended.empty(last, ", PRICES.DAT of user 0: emptied, its extent 0 is missing")
    mended.zero(9, "BUDGET.DAT of user 3", {1: past, 3: 44, 7: 1, 5: 46})
    mended.put(23, entry(15, "LATER", 0, 128), {0: 51})
    mended.zero(23, "LATER of user 15", {1: 47})
    return mended


def single_damages(kind):
    mended = Mended(kind)
    mended.zero(0, "ORDERS of user 0", {7: 1})
    yield mended
    mended = Mended(kind)
    mended.before.put(0, entry(0xE4, "ORDERS"), {0: 47})
    mended.empty(0, ": emptied, its first byte is E4h, neither a user, 0 to 15, nor E5h for an empty entry")
    yield mended
    mended = Mended(kind)
    mended.before.poke(5, 0, 0xE5)
    mended.after.poke(5, 0, 0xE5)
    mended.empty(9, ", BUDGET.DAT of user 3: emptied, its extent 0 is missing")
    yield mended
    mended = Mended(kind)
    mended.before.poke(5, 15, 129)
    mended.empty(5, ", BUDGET.DAT of user 3: emptied, its record count is 129, over 128")
    mended.empty(9, ", BUDGET.DAT of user 3: emptied, its extent 0 is missing")
    yield mended


def salvages(desk, kind):
    for mended in (one_of_each(kind), *single_damages(kind)):
        path, new = desk.keep(mended.before.bytes), desk.new()
        lines = [line for _, line in sorted(mended.lines.items())]
        desk.says(["salvage", path, "-o", new], [*lines, f"{path}: {mended.totals()}; sound now, in {new}"], NOT_SO)
        desk.has_kept(path, mended.before.bytes)
        desk.has_kept(new, mended.after.bytes)
        desk.says(["check", new], [f"{new}: sound"], DONE)
        again = desk.new()
        desk.says(["salvage", new, "-o", again], [f"{new}: sound already, copied to {again}"], DONE)
        desk.has_kept(again, mended.after.bytes)
    writes_over_nothing(desk, "salvage", mended.before.bytes)


def writes_over_nothing(desk, verb, content):
    """Not its input, by any name, and no other file."""
    path, other = desk.keep(content), desk.keep(b"other")
    linked, named = desk.new(), desk.new()
    os.link(path, linked)
    os.symlink(path, named)
    try:
        for new in (path, linked, named, other, os.path.join(desk.folder, ".", os.path.basename(path))):
            desk.says([verb, path, "-o", new], [f"{new}: is there already, and nothing is written over"], FAILED)
    finally:
        os.remove(named)  # rt ci takes no links below the repository
    nowhere = os.path.join(desk.folder, "none", "new")
    desk.says([verb, path, "-o", nowhere], [f"{nowhere}: cannot be made"], FAILED)
    desk.has_kept(path, content)
    desk.has_kept(other, b"other")


def cannot_be_mended(desk):
    new = desk.new()
    for content, line in lengths():
        path = desk.keep(content)
        desk.says(["salvage", path, "-o", new], [f"{path}: {line}"], FAILED)
    for missing in (os.path.join(desk.folder, "none"), desk.folder):
        desk.says(["salvage", missing, "-o", new], [f"{missing}: cannot be read"], FAILED)
    desk.has_not_made(new)


def block(kind, number):
    """Bytes that no other block has, from one record to the next too."""
    return b"".join(f"block {number:4} record {i:2} ".encode().ljust(128, b".") for i in range(kind.block // 128))


def scattered(kind):
    """Entries and blocks here and there, holes, what deleted files have left; and the book that it has to become."""
    before, after = bytearray(b"\xe5") * kind.length(), bytearray(b"\xe5") * kind.length()
    after[ENTRY * kind.entries :] = bytes(kind.length() - ENTRY * kind.entries)
    before[ENTRY * 3 : ENTRY * 4] = entry(0xE5, "GONE", 0, 9)
    before[ENTRY * kind.entries :] = b"\x77" * (kind.length() - ENTRY * kind.entries)
    files = [
        (0, entry(0, "FIRST"), {0: 2, 1: 9}),
        (4, entry(3, "B.DAT", 40, 128), {kind.numbers - 1: 61, 2: 3}),
        (9, entry(3, "A.DAT", 0, 0), {}),
        (kind.entries - 1, entry(3, "B.DAT", 0, 1), {0: 30}),
    ]
    files[1][1][1 + 8] |= 0x80
    files[1][1][13] = 99
    number, moved = 2, 0
    for to, (at, bytes_of, blocks) in enumerate(files):
        was, is_now = bytearray(bytes_of), bytearray(bytes_of)
        for index, old in sorted(blocks.items()):
            for bytes_to, value in ((was, old), (is_now, number)):
                place = 16 + kind.width * index
                bytes_to[place : place + kind.width] = value.to_bytes(kind.width, "little")
            before[kind.block * old : kind.block * (old + 1)] = block(kind, old)
            after[kind.block * number : kind.block * (number + 1)] = block(kind, old)
            moved += old != number
            number += 1
        before[ENTRY * at : ENTRY * (at + 1)] = was
        after[ENTRY * to : ENTRY * (to + 1)] = is_now
    return before, after, f"3 of 4 entries and {moved} of {number - 2} blocks moved"


def packs(desk, kind):
    before, after, moved = scattered(kind)
    path, new, again = desk.keep(before), desk.new(), desk.new()
    desk.says(["pack", path, "-o", new], [f"{path}: {moved}; packed in {new}"], DONE)
    desk.has_kept(path, before)
    desk.has_kept(new, after)
    desk.says(["check", new], [f"{new}: sound"], DONE)
    desk.says(["pack", new, "-o", again], [f"{new}: 0 of 4 entries and 0 of 5 blocks moved; packed in {again}"], DONE)
    desk.has_kept(again, after)
    empty, new = desk.keep(b"\xe5" * kind.length()), desk.new()
    desk.says(["pack", empty, "-o", new], [f"{empty}: 0 of 0 entries and 0 of 0 blocks moved; packed in {new}"], DONE)
    directory = ENTRY * kind.entries
    desk.has_kept(new, b"\xe5" * directory + bytes(kind.length() - directory))
    one, new = desk.keep(b"\xe5" * ENTRY * 2 + entry(0, "ONE") + b"\xe5" * (kind.length() - ENTRY * 3)), desk.new()
    desk.says(["pack", one, "-o", new], [f"{one}: 1 of 1 entry and 0 of 0 blocks moved; packed in {new}"], DONE)
    bad, new = desk.keep(Image(kind).poke(9, 15, 129).bytes), desk.new()
    line = f"{bad}: entry 9, BUDGET.DAT of user 3: its record count is 129, over 128"
    desk.says(["pack", bad, "-o", new], [line], NOT_SO)
    short = desk.keep(bytes(100))
    desk.says(["pack", short, "-o", new], [f"{short}: 100 bytes, no drive's length"], NOT_SO)
    desk.has_not_made(new)
    writes_over_nothing(desk, "pack", before)


def changes(kind, image):
    """Bytes to be put into the packed book of scattered(), at which place, and what has to be said, with OLD and NEW
    for the paths; the pair turned round too, if that is something else. A.DAT of user 3 is in entry 2 there; FIRST has
    the blocks 2 and 3, B.DAT 6 and, in extent 40, 4 and 5."""
    in_block = kind.block // 128
    first, later, bare = "FIRST of user 0", "B.DAT of user 3", "A.DAT of user 3"

    def flipped(at, bit):
        return at, bytes([image[at] ^ bit])

    def hole(at, index):
        return ENTRY * at + 16 + kind.width * index, bytes(kind.width)

    yield *flipped(2 * kind.block, 1), f"{first}: record 0 differs"
    yield *flipped(4 * kind.block - 1, 1), f"{first}: record {2 * in_block - 1} differs"
    yield *flipped(4 * kind.block + 133, 1), f"{later}: record {40 * 128 + 2 * in_block + 1} differs"
    yield *hole(0, 1), f"{first}: record {in_block} has a block in OLD alone"
    yield *hole(1, kind.numbers - 1), f"{later}: record {41 * 128 - in_block} has a block in OLD alone"
    yield *flipped(9, 0x80), f"{first}: the read-only attribute is set in NEW alone"
    yield *flipped(ENTRY * 2 + 11, 0x80), f"{bare}: attribute 11 is set in NEW alone"
    yield ENTRY * 1, b"\xe5", f"{later}: record {40 * 128 + 2 * in_block} has a block in OLD alone"
    yield ENTRY * 2, b"\xe5", f"{bare} is in OLD alone"
    yield ENTRY * 2, b"\x04", f"{bare} is in OLD alone", "A.DAT of user 4 is in NEW alone"
    yield ENTRY * 4, bytes(entry(15, "Z.Z")), "Z.Z of user 15 is in NEW alone"


def compares(desk, kind):
    before, after, _ = scattered(kind)
    old, new = desk.keep(before), desk.keep(after)
    for one, other in ((old, new), (new, old), (old, old)):
        desk.says(["compare", one, other], [f"{one} and {other}: the same book"], DONE)
    longer = desk.keep(after + bytes(kind.block * 7))
    desk.says(["compare", old, longer], [f"{old} and {longer}: the same book"], DONE)
    for at, put, *lines in changes(kind, after):
        path = desk.keep(after[:at] + put + after[at + len(put) :])
        for one, other, line in ((old, path, lines[0]), (path, old, lines[-1])):
            said = line.replace("OLD", old).replace("NEW", path)
            desk.says(["compare", one, other], [f"{one} and {other}: {said}"], NOT_SO)
    desk.has_kept(old, before)
    desk.has_kept(new, after)
    cannot_be_compared(desk, kind, old)


def cannot_be_compared(desk, kind, good):
    bad, short = desk.keep(Image(kind).poke(9, 15, 129).bytes), desk.keep(bytes(100))
    why = f"{bad}: entry 9, BUDGET.DAT of user 3: its record count is 129, over 128"
    length = f"{short}: 100 bytes, no drive's length"
    missing = os.path.join(desk.folder, "none")
    other = desk.keep(Image(LARGE if kind is SMALL else SMALL).bytes)
    for words, line in (
        ([bad, good], why),
        ([good, bad], why),
        ([bad, short], why),
        ([short, good], length),
        ([good, short], length),
        ([missing, good], f"{missing}: cannot be read"),
        ([good, missing], f"{missing}: cannot be read"),
        ([good, other], f"{other}: is of the other kind of drive"),
    ):
        desk.says(["compare", *words], [line], FAILED)


VERBS = (
    "check IMAGE..",
    "size IMAGE [USER:]NAME..",
    "list IMAGE [USER]",
    "free IMAGE..",
    "salvage IMAGE -o NEW",
    "pack IMAGE -o NEW",
    "compare OLD NEW",
)


def wrong_use(desk):
    words = (verb.partition(" ") for verb in VERBS)
    use = "".join(f"use: book {verb} [--rule 2.2] {rest}\n" for verb, _, rest in words)
    bad = [[], ["check"], ["chekc", "x"], ["-h"], ["size"], ["size", "x"], ["list"], ["list", "x", "0", "1"]]
    bad += [["free"], ["check", "--rule"], ["check", "--rule", "2.3", "x"], ["check", "--rule", "2.2"]]
    for verb in ("salvage", "pack"):
        bad += [[verb], [verb, "x"], [verb, "x", "-o"], [verb, "x", "y", "z"], [verb, "x", "-o", "y", "z"]]
    bad += [["compare"], ["compare", "x"], ["compare", "x", "y", "z"]]
    for words in bad:
        desk.says(words, [], FAILED, use)
    none = os.path.join(desk.folder, "none")
    desk.says(["size", none, "LAST"], [f"{none}: cannot be read"], FAILED)
    desk.says(["list", none], [f"{none}: cannot be read"], FAILED)


def main():
    desk = Desk(sys.argv[1], sys.argv[2:])
    check(desk)
    for kind in (SMALL, LARGE):
        sizes(desk, kind)
        lists(desk, kind)
        frees(desk, kind)
        rules(desk, kind)
        salvages(desk, kind)
        packs(desk, kind)
        compares(desk, kind)
    cannot_be_mended(desk)
    wrong_use(desk)
    print(f"book says what it has to of {desk.images} images")


if __name__ == "__main__":
    main()
