"""A host whose disk gets full: it says so in one line, acknowledges nothing that it could not save, and loses nothing.

full.py [--limit BYTES] FOLDER HOST..

HOST.. is the command of minimal. FOLDER is empty and on a disk with little room, which is filled up with a file while a
clerk writes. With --limit the disk may be any: the host's files can get no longer than so many bytes.
Exit status: 0 if all was well, 1 if not."""

import argparse
import os
import resource
import signal
import sys

sys.dont_write_bytecode = True  # the folder of the sources stays as it is
import kill

NOT_SAVED = (255, 255)
WRITES = 500
LINES, FIRST_LINES = 40, 5
MAY_SAY = ("cannot save the book", "cannot write the book anew", "left out the last")


def fill_up(path):
    with open(path, "wb", buffering=0) as stream:
        try:
            while True:
                stream.write(bytes(1024))
        except OSError:
            pass


def limited(length):
    """What a host does before it starts: a file that would get too long is an error, as on a full disk."""
    signal.signal(signal.SIGXFSZ, signal.SIG_IGN)
    resource.setrlimit(resource.RLIMIT_FSIZE, (length, resource.RLIM_INFINITY))


def text(number):
    return f"write {number}".encode().ljust(kill.RECORD_LEN)


def write_until_full(caller, known):
    """Writes lines in turn, up to the first write that is not saved."""
    for number in range(FIRST_LINES, WRITES):
        line = number % LINES
        answer, _, _ = caller.call(kill.WRITE, kill.fcb_of("ORDERS.DAT", record=line), text(number))
        if answer == NOT_SAVED:
            return
        if answer != kill.OK:
            raise kill.Wrong(f"write {number} was answered {answer[0]}/{answer[1]}")
        known.lines[line] = text(number)
    raise kill.Wrong("the disk was never full")


def said(host):
    """What the host has said on its standard error. Every line is one of a few."""
    with open(host.log.name) as stream:
        lines = [line for line in stream.read().splitlines() if not line.startswith("serves ")]
    for line in lines:
        if not any(words in line for words in MAY_SAY):
            raise kill.Wrong(f"the host said: {line}")
    return [line for line in lines if MAY_SAY[0] in line]


def play(folder, command, limit):
    known, host = kill.Known(), kill.Host(folder, command)
    host.new("small")
    host.spawn((lambda: limited(limit)) if limit else None)
    filler = os.path.join(folder, "filler")
    try:
        caller = host.caller()
        caller.must(kill.MAKE, kill.fcb_of("ORDERS.DAT"))
        for line in range(FIRST_LINES):
            caller.must(kill.WRITE, kill.fcb_of("ORDERS.DAT", record=line), text(line))
            known.lines[line] = text(line)
        if not limit:
            fill_up(filler)
        write_until_full(caller, known)
        if len(said(host)) != 1:
            raise kill.Wrong("a write that was not saved has not one line")
        found = kill.read_lines(caller)  # reading goes on, and nothing is there of the write that was not saved
        kill.look_at_lines(found, known)
        if any(found[line] != known.lines[line] for line in known.lines):
            raise kill.Wrong("a line is not as it was acknowledged")
        host.kill()
        if os.path.exists(filler):
            os.unlink(filler)
        host.spawn()
        kill.look_at(host.caller(), known)
    finally:
        host.kill()
    return said(host)[0]


def main():
    parser = argparse.ArgumentParser(usage=__doc__.splitlines()[2])
    parser.add_argument("--limit", type=int)
    parser.add_argument("folder")
    parser.add_argument("host", nargs="+")
    words = parser.parse_args()
    try:
        line = play(words.folder, words.host, words.limit)
    except (kill.Wrong, kill.Gone) as error:
        print(f"WRONG: {error or 'the host is gone'}")
        return 1
    print(f"the host said: {line}")
    return 0


if __name__ == "__main__":
    sys.exit(main())
