#!/usr/bin/env python3
"""Plays a page: does what its blocks marked `console` show, and holds what comes out against what they show.

page.py PAGE FOLDER

A line that begins with "$ " is a command, those behind it up to the next command or the end of the block are what it
prints, on either stream. All commands are done by one bash, in FOLDER, with the PATH that this program has.
Exit status: 0 if all is as the page shows, 1 at the first difference, 2 for a page without such a block."""

import subprocess
import sys

MARK = "page.py: done"


def steps(page):
    """The commands of the page, each with its line's number and the lines that it has to print."""
    found, shown = [], False
    with open(page) as lines:
        for number, line in enumerate(lines, 1):
            line = line.rstrip("\n")
            if line.startswith("```"):
                shown = line == "```console"
            elif shown and line.startswith("$ "):
                found.append((number, line[2:], []))
            elif shown:
                found[-1][2].append(line)
    return found


def play(shell, command):
    shell.stdin.write(f"{command}\nprintf '%s\\n' '{MARK}'\n")
    shell.stdin.flush()
    said = []
    for line in shell.stdout:
        line = line.rstrip("\n")
        if line == MARK:
            return said
        said.append(line)
    return said + ["the shell has ended"]


def main():
    page, folder = sys.argv[1:]
    todo = steps(page)
    if not todo:
        print(f"{page}: no block to play")
        return 2
    streams = dict(stdin=subprocess.PIPE, stdout=subprocess.PIPE, stderr=subprocess.STDOUT)
    shell = subprocess.Popen(["bash", "--norc"], cwd=folder, text=True, **streams)
    for number, command, wanted in todo:
        said = play(shell, command)
        if said != wanted:
            print(f"{page}:{number}: {command}")
            print("\n".join(["shows:", *wanted, "printed:", *said]))
            return 1
    shell.stdin.close()
    shell.wait()
    print(f"{len(todo)} commands do what {page} shows")
    return 0


if __name__ == "__main__":
    sys.exit(main())
