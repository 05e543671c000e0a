"""Kills a host again and again while clerks write, and looks at the book after each restart.

kill.py [--times N] [--seed S] [--kind small|large] FOLDER HOST..

HOST.. is the command of minimal (or of another host with the same commands). FOLDER is where the book is kept; it must
be empty. Four clerks write to ORDERS.DAT at once, each to lines of its own, in runs of 1 to 16; those to 12 they lock
first once the lines are there. They make and delete files; now and then a clerk dies with its locks. The host gets
SIGKILL at a moment by chance, one time in five while it starts. After each restart
  - 46 is accepted: image and list are sound;
  - every line that was acknowledged is there, and of a run that was not yet acknowledged all lines are new or none is;
  - every file that was made is there, and none that was deleted;
  - nobody has ORDERS.DAT open or holds a lock in it.
The seed chooses what the clerks do and when the host is killed. What the machine does meanwhile it cannot choose, so a
seed repeats a failure only as a rule. The last line has the figures. Exit status: 0 if all was well, 1 if not, 2 for
wrong use."""

import argparse
import os
import random
import signal
import socket
import subprocess
import sys
import threading
import time

OPEN, CLOSE, DELETE, MAKE, READ, WRITE, ZERO_WRITE, LOCK, UNLOCK, FREE = 15, 16, 19, 22, 33, 34, 40, 42, 43, 46
OK, NO_FILE = (0, 0), (255, 0)
FCB_LEN, DMA_LEN, RECORD_LEN, MOST = 36, 2048, 128, 16
CLERKS, LINES_EACH = 4, 24
MOST_LOCKED = 12  # by a clerk: with two opens for each there is room for all in a list of 64 places
IMAGE_LEN = {"small": 16 * 1024, "large": 257 * 2048}
START_SECONDS = 60


class Gone(Exception):
    """The host is not there any more."""


class Wrong(Exception):
    """The host or the book is not as it has to be."""


def fcb_of(name, unlocked=True, record=0):
    stem, _, kind = name.partition(".")
    fcb = bytearray(FCB_LEN)
    fcb[1:12] = (stem.ljust(8) + kind.ljust(3)).encode()
    if unlocked:
        fcb[5] |= 0x80
    fcb[33:36] = record.to_bytes(3, "little")
    return bytes(fcb)


class Caller:
    """A program that is connected to the host."""

    def __init__(self, path):
        self.socket = socket.socket(socket.AF_UNIX)
        try:
            self.socket.connect(path)
        except OSError as error:
            raise Gone from error

    def call(self, function, fcb, dma=b"", count=1):
        """The answer as (A, H), with the FCB and the DMA that came back."""
        try:
            self.socket.sendall(bytes([function, count]) + fcb + dma.ljust(DMA_LEN, b"\0"))
            answer = b""
            while len(answer) < 2 + FCB_LEN + DMA_LEN:
                some = self.socket.recv(65536)
                if not some:
                    raise Gone
                answer += some
        except OSError as error:
            raise Gone from error
        return (answer[0], answer[1]), answer[2 : 2 + FCB_LEN], answer[2 + FCB_LEN :]

    def must(self, function, fcb, dma=b"", count=1):
        """A call that has to be accepted."""
        answer, fcb, dma = self.call(function, fcb, dma, count)
        if answer != OK:
            raise Wrong(f"function {function} was answered {answer[0]}/{answer[1]}")
        return fcb, dma

    def open(self, name):
        """Opens the file unlocked. Gives the File ID for a DMA."""
        fcb, _ = self.must(OPEN, fcb_of(name))
        return fcb[33:35]

    def close(self):
        self.socket.close()


class Known:
    """What the clerks know of the book: what was acknowledged, and what they asked for last and heard nothing of."""

    def __init__(self):
        self.lines = {}
        self.files = {}
        self.asked_lines = [{} for _ in range(CLERKS)]
        self.asked_files = [{} for _ in range(CLERKS)]
        self.acknowledged = [0] * CLERKS
        self.old = self.new = 0

    def settle(self, asked, known, found, what):
        """Of what was asked for all is there or nothing is. What nobody knew before may be anything else: a line can
        have come with the block of another."""
        if not asked:
            return
        is_new = all(found.get(key) == value for key, value in asked.items())
        if not is_new and any(found.get(key) == value or found.get(key) != known.get(key, found.get(key))
                              for key, value in asked.items()):
            raise Wrong(f"a mixture: some {what} of a call are there and some are not")
        if is_new:
            known.update(asked)
        self.new += is_new
        self.old += not is_new
        asked.clear()


class Clerk(threading.Thread):
    """Works until the host is gone."""

    def __init__(self, number, path, known, seed):
        super().__init__(daemon=True)
        self.number, self.path, self.known, self.chance = number, path, known, random.Random(seed)
        self.wrong = None

    def run(self):
        try:
            self.begin()
            while True:
                self.work()
        except Gone:
            pass
        except Exception as error:  # told by the main thread
            self.wrong = error

    def begin(self):
        self.caller = Caller(self.path)
        self.file_id = self.caller.open("ORDERS.DAT")

    def work(self):
        does = self.chance.random()
        if does < 0.1:
            self.make_or_delete()
        elif does < 0.15:
            self.die()
        else:
            self.write_run()

    def write_run(self):
        first = self.number * LINES_EACH + self.chance.randrange(LINES_EACH)
        count = self.chance.randint(1, min(MOST, (self.number + 1) * LINES_EACH - first))
        lines = range(first, first + count)
        locked = count <= MOST_LOCKED and all(line in self.known.lines for line in lines)
        if locked:
            self.caller.must(LOCK, fcb_of("ORDERS.DAT", record=first), self.file_id, count)
        asked = {line: self.text(line) for line in lines}
        self.known.asked_lines[self.number] = asked
        function = self.chance.choice([WRITE, ZERO_WRITE])
        self.caller.must(function, fcb_of("ORDERS.DAT", record=first), b"".join(asked.values()), count)
        self.known.lines.update(asked)
        self.known.asked_lines[self.number] = {}
        self.known.acknowledged[self.number] += 1
        if locked:
            self.caller.must(UNLOCK, fcb_of("ORDERS.DAT", record=first), self.file_id, count)

    def text(self, line):
        return f"line {line} of clerk {self.number}, {self.chance.getrandbits(64):x}".encode().ljust(RECORD_LEN)

    def make_or_delete(self):
        name = f"CLERK{self.number}.TMP"
        there = self.known.files.get(name, False)
        self.known.asked_files[self.number] = {name: not there}
        self.caller.must(DELETE if there else MAKE, fcb_of(name))
        self.known.files[name] = not there
        self.known.asked_files[self.number] = {}
        self.known.acknowledged[self.number] += 1
        if not there:
            self.caller.must(CLOSE, fcb_of(name))

    def die(self):
        """The program is killed while it holds a lock; a new one begins at once and must get that lock."""
        first = self.number * LINES_EACH
        if first not in self.known.lines:
            return
        self.caller.must(LOCK, fcb_of("ORDERS.DAT", record=first), self.file_id)
        self.caller.close()
        self.begin()
        self.caller.must(LOCK, fcb_of("ORDERS.DAT", record=first), self.file_id)
        self.caller.must(UNLOCK, fcb_of("ORDERS.DAT", record=first), self.file_id)


# ---- What has to hold after a restart


def look_at(caller, known):
    caller.must(FREE, fcb_of("ORDERS.DAT"))
    caller.must(OPEN, fcb_of("ORDERS.DAT", unlocked=False))  # refused while anybody else has it open
    look_at_lines(read_lines(caller), known)
    look_at_files(caller, known)
    caller.must(CLOSE, fcb_of("ORDERS.DAT"))
    lock_all(caller, known)


def read_lines(caller):
    found = {}
    line = 0
    while line < CLERKS * LINES_EACH:
        fcb = fcb_of("ORDERS.DAT", record=line)
        answer, _, dma = caller.call(READ, fcb, count=MOST)
        done = MOST if answer == OK else answer[1] // 16
        for i in range(done):
            found[line + i] = dma[RECORD_LEN * i : RECORD_LEN * (i + 1)]
        line += done if answer == OK else done + 1
    return found


def look_at_lines(found, known):
    for asked in known.asked_lines:
        known.settle(asked, known.lines, found, "lines")
    for line, text in known.lines.items():
        if found.get(line) != text:
            raise Wrong(f"line {line} was acknowledged and is not there")


def look_at_files(caller, known):
    there = {}
    for name in {name for files in [known.files, *known.asked_files] for name in files}:
        answer, _, _ = caller.call(OPEN, fcb_of(name))
        if answer not in (OK, NO_FILE):
            raise Wrong(f"opening {name} was answered {answer[0]}/{answer[1]}")
        there[name] = answer == OK
        if there[name]:
            caller.must(CLOSE, fcb_of(name))
    for asked in known.asked_files:
        known.settle(asked, known.files, there, "files")
    for name, is_there in known.files.items():
        if there[name] != is_there:
            raise Wrong(f"{name} was {'made and is not there' if is_there else 'deleted and is there'}")


def lock_all(caller, known):
    file_id = caller.open("ORDERS.DAT")
    for line in known.lines:
        caller.must(LOCK, fcb_of("ORDERS.DAT", record=line), file_id)
        caller.must(UNLOCK, fcb_of("ORDERS.DAT", record=line), file_id)
    caller.must(CLOSE, fcb_of("ORDERS.DAT"))


# ---- The host


class Host:
    def __init__(self, folder, command):
        self.command, self.folder = command, folder
        self.book, self.path = os.path.join(folder, "ORDERS.BOOK"), os.path.join(folder, "socket")
        self.log = open(os.path.join(folder, "log"), "ab")

    def new(self, kind):
        image = os.path.join(self.folder, "empty")
        with open(image, "wb") as stream:
            stream.write(b"\xe5" * IMAGE_LEN[kind])
        subprocess.run([*self.command, "new", self.book, image], check=True, stderr=self.log)

    def spawn(self, first=None):
        """Starts the host, and waits for nothing. `first` is called in the new process before."""
        if os.path.exists(self.path):
            os.unlink(self.path)
        words = [*self.command, "serve", self.book, self.path]
        self.process = subprocess.Popen(words, stdout=self.log, stderr=self.log, preexec_fn=first)

    def caller(self):
        """Connects as soon as the host listens."""
        end = time.monotonic() + START_SECONDS
        while time.monotonic() < end:
            if self.process.poll() is not None:
                raise Wrong(f"the host does not start; its last line is: {self.last_line()}")
            try:
                return Caller(self.path)
            except Gone:
                time.sleep(0.002)
        raise Wrong("the host does not listen")

    def last_line(self):
        with open(self.log.name, errors="replace") as stream:
            return (stream.read().splitlines() or ["(none)"])[-1]

    def kill(self):
        self.process.send_signal(signal.SIGKILL)
        self.process.wait()


# ---- The loop


def kill_while_it_starts(host, chance):
    host.spawn()
    time.sleep(chance.uniform(0, 0.2))
    host.kill()


def kill_while_clerks_write(host, known, chance):
    host.spawn()
    caller = host.caller()
    look_at(caller, known)
    caller.close()
    clerks = [Clerk(i, host.path, known, chance.getrandbits(32)) for i in range(CLERKS)]
    for clerk in clerks:
        clerk.start()
    time.sleep(chance.uniform(0.02, 0.3))
    host.kill()
    for clerk in clerks:
        clerk.join()
        if clerk.wrong:
            raise Wrong(f"clerk {clerk.number}: {clerk.wrong}")


def play(words):
    chance = random.Random(words.seed)
    known, host = Known(), Host(words.folder, words.host)
    host.new(words.kind)
    host.spawn()
    try:
        host.caller().must(MAKE, fcb_of("ORDERS.DAT"))
        host.kill()
        for number in range(1, words.times + 1):
            if chance.random() < 0.2:
                kill_while_it_starts(host, chance)
            else:
                kill_while_clerks_write(host, known, chance)
        host.spawn()
        look_at(host.caller(), known)
    finally:
        host.kill()
    return known


def main():
    parser = argparse.ArgumentParser(usage=__doc__.splitlines()[2])
    parser.add_argument("--times", type=int, default=50)
    parser.add_argument("--seed", type=int, default=random.SystemRandom().randrange(1 << 31))
    parser.add_argument("--kind", choices=IMAGE_LEN, default="small")
    parser.add_argument("folder")
    parser.add_argument("host", nargs="+")
    words = parser.parse_args()
    began = time.monotonic()
    told = f"{words.times} kills of a host with a {words.kind} drive, seed {words.seed}"
    try:
        known = play(words)
    except (Wrong, Gone) as error:
        print(f"{told}: WRONG: {error or 'the host is gone'}")
        return 1
    print(f"{told}: {sum(known.acknowledged)} acknowledged writes, all there; of the calls under way {known.new} were "
          f"done and {known.old} not; {time.monotonic() - began:.0f} s")
    return 0


if __name__ == "__main__":
    sys.exit(main())
