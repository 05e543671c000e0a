#!/usr/bin/env bash
# expected.sh [small|large]: what the story has to print on a drive of that kind (small). What depends on the kind is
# worked out here from its block's records and its number of blocks, and by nothing of story.c.
set -euo pipefail
goods=(apples plums salt tea nails soap rope)
case ${1:-small} in
small) records=8 blocks=16 ;;
large) records=16 blocks=257 ;;
*)
    echo "use: expected.sh [small|large]" >&2
    exit 2
    ;;
esac
taken=$(((24 + records - 1) / records)) # blocks, by the 24 lines of the morning
free=$((records * (blocks - 2 - taken)))
new=$((records * taken))        # the first line in a new block
pair=$((new + records - 2))     # the first of four lines, two in this block and two in the next
last=$((new + 2 * records - 1)) # the last line with a block
screen=$((last - 11))           # the first of sixteen lines, twelve with a block
no_block=MPM_ERR_NO_BLOCK

row() { # NUMBER WHO CALL WORDS ANSWER NAME
    printf '%4u  %-7s  %4s  %-45s  %-6s  %s\n' "$@"
}

# 46's figure, and the monitor's, which reads the vector alone.
free_space() { # NUMBER WHO RECORDS
    row "$1" "$2" 46 "asks for the free space" 0/0 "MPM_OK, $3 records free; monitor: $3"
}

# The blocks are taken in rising order, so a file's records stand one behind the other.
shown() { # LINE [CLERK]: without a clerk, a line that was only cleared
    local text='(zeros)'
    if [ $# -eq 2 ]; then
        text=$(printf 'line %2u: %u crates of %s, clerk %u' "$1" $((4 + $1 % 5 + 10 * $2)) "${goods[$1 % 7]}" "$2")
    fi
    printf '%6u  %9u  %s\n' "$1" $((128 * (2 * records + $1))) "$text"
}

shown_lines() {
    shown 0 1
    shown 1 3
    shown 3 3
    shown 4 2
    shown 5 2
    for line in 6 7 8 11; do shown "$line" 1; done
    shown 12 2
    shown 23 2
    shown "$new" 2
    shown $((new + 1))
    shown $((pair - 1))
    for line in 0 1 2 3; do shown $((pair + line)) 3; done
    shown $((pair + 4))
    shown "$last"
    printf '%6u  %9u  %s\n' $((last + 1)) 0 'nothing to show'
}

cat <<TEXT
An order book that clerks share. A/H is the engine's answer.

step  who      call  what                                           A/H     name
$(row 1 host - "makes ORDERS.BOOK of $blocks blocks; checks it" 0 MPM_CHECK_SOUND)
   2  host        -  builds its allocation vector                   0/0     MPM_OK
   3  host        -  starts a list: 12 places, 2 opens, 10 locks    0/0     MPM_OK
   4  office     22  makes ORDERS.DAT                               0/0     MPM_OK, File ID 0
   5  office     16  closes it                                      0/0     MPM_OK
   6  clerk 1    15  opens it unlocked                              0/0     MPM_OK, File ID 0
   7  clerk 2    15  opens it unlocked                              0/0     MPM_OK, File ID 1
   8  clerk 1    40  writes lines 0 to 11                           0/0     MPM_OK, 12 lines done
   9  clerk 2    40  writes lines 12 to 23                          0/0     MPM_OK, 12 lines done
$(free_space 10 'clerk 2' $((free)))
  11  clerk 1    42  locks lines 0 to 9                             0/0     MPM_OK

The lock list before the death
  place  item  process  file          mode       record
      0  open        1  ORDERS.DAT    unlocked        -
      1  open        2  ORDERS.DAT    unlocked        -
      2  lock        1  ORDERS.DAT    unlocked        0
      3  lock        1  ORDERS.DAT    unlocked        1
      4  lock        1  ORDERS.DAT    unlocked        2
      5  lock        1  ORDERS.DAT    unlocked        3
      6  lock        1  ORDERS.DAT    unlocked        4
      7  lock        1  ORDERS.DAT    unlocked        5
      8  lock        1  ORDERS.DAT    unlocked        6
      9  lock        1  ORDERS.DAT    unlocked        7
     10  lock        1  ORDERS.DAT    unlocked        8
     11  lock        1  ORDERS.DAT    unlocked        9
  12 of 12 places taken

Clerk 1's program dies. Nothing tells the engine, so nothing changes.

The lock list after the death
  place  item  process  file          mode       record
      0  open        1  ORDERS.DAT    unlocked        -
      1  open        2  ORDERS.DAT    unlocked        -
      2  lock        1  ORDERS.DAT    unlocked        0
      3  lock        1  ORDERS.DAT    unlocked        1
      4  lock        1  ORDERS.DAT    unlocked        2
      5  lock        1  ORDERS.DAT    unlocked        3
      6  lock        1  ORDERS.DAT    unlocked        4
      7  lock        1  ORDERS.DAT    unlocked        5
      8  lock        1  ORDERS.DAT    unlocked        6
      9  lock        1  ORDERS.DAT    unlocked        7
     10  lock        1  ORDERS.DAT    unlocked        8
     11  lock        1  ORDERS.DAT    unlocked        9
  12 of 12 places taken

step  who      call  what                                           A/H     name
  12  clerk 2    33  reads line 4: a lock does not stop reading     0/0     MPM_OK
  13  clerk 2    34  writes line 4: clerk 1 still holds it          8/0     MPM_ERR_LOCKED
  14  clerk 2    42  locks line 4: clerk 1 still holds it           8/0     MPM_ERR_LOCKED
  15  clerk 2    42  locks lines 9 to 12: clerk 1 still holds 9     8/0     MPM_ERR_LOCKED
  16  clerk 2    42  locks line 12: free, but the list is full      14/0    MPM_ERR_LOCK_LIST_FULL
  17  clerk 2    42  locks lines 12 to 22: 11 exceed its limit      12/0    MPM_ERR_LOCK_LIMIT
  18  clerk 3    15  opens it: the list is full                     255/11  MPM_ERR_OPEN_LIST_FULL
  19  clerk 3    19  deletes it: others have it open                255/5   MPM_ERR_IN_USE
  20  host      143  ends process 1                                 0/0     MPM_OK

The lock list after 143
  place  item  process  file          mode       record
      1  open        2  ORDERS.DAT    unlocked        -
  1 of 12 places taken

step  who      call  what                                           A/H     name
  21  clerk 2    42  locks lines 4 to 6                             0/0     MPM_OK
  22  clerk 2    34  writes line 4                                  0/0     MPM_OK
  23  clerk 2    41  writes line 5 if it is still as it was         0/0     MPM_OK
$(row 24 'clerk 2' 40 "writes line $new, in a new block" 0/0 MPM_OK)
$(free_space 25 'clerk 2' $((free - records)))
  26  clerk 3    15  opens it unlocked                              0/0     MPM_OK, File ID 4
  27  clerk 3    33  reads lines 0 to 15, a screen                  0/0     MPM_OK, 16 lines done
  28  clerk 3    34  writes lines 1 to 8: clerk 2 holds 4           8/48    MPM_ERR_LOCKED, 3 lines done
  29  clerk 3    33  reads lines 0 to 15 again                      0/0     MPM_OK, 16 lines done
$(row 30 'clerk 3' 40 "writes lines $pair to $((pair + 3)), two in a new block" 0/0 'MPM_OK, 4 lines done')
$(row 31 'clerk 3' 33 "reads lines $screen to $((screen + 15)): none are past $last" 1/192 "$no_block, 12 lines done")
$(free_space 32 'clerk 3' $((free - 2 * records)))

The lock list while clerks 2 and 3 go on
  place  item  process  file          mode       record
      0  lock        2  ORDERS.DAT    unlocked        4
      1  open        2  ORDERS.DAT    unlocked        -
      2  lock        2  ORDERS.DAT    unlocked        5
      3  lock        2  ORDERS.DAT    unlocked        6
      4  open        3  ORDERS.DAT    unlocked        -
  5 of 12 places taken

step  who      call  what                                           A/H     name
  33  clerk 2    43  unlocks lines 4 to 6                           0/0     MPM_OK
  34  clerk 2    16  closes it                                      0/0     MPM_OK
  35  clerk 3    16  closes it                                      0/0     MPM_OK
  36  office     35  asks for its size                              0/0     MPM_OK, $((pair + 4)) records
  37  office     22  makes WORK.\$\$\$, locked, for the import         0/0     MPM_OK
  38  office     40  writes lines 0 to 9 of it                      0/0     MPM_OK, 10 lines done
  39  clerk 2    17  lists the directory                            0/0     MPM_FOUND, ORDERS.DAT
  40  clerk 2    18  lists on                                       1/0     MPM_FOUND, WORK.\$\$\$
  41  clerk 2    19  deletes it: the office has it open             255/5   MPM_ERR_IN_USE
  42  clerk 2    17  lists the directory again                      0/0     MPM_FOUND, ORDERS.DAT
  43  office     19  deletes it, open as it is                      0/0     MPM_OK
  44  clerk 2    18  lists on: the work file is gone                255/0   MPM_NO_MATCH
  45  clerk 3    18  lists on, and has not begun                    255/0   MPM_NO_MATCH
$(free_space 46 'office' $((free - 2 * records)))
  47  host        -  writes ORDERS.BOOK, reads it again; checks it  0       MPM_CHECK_SOUND

The lock list at night
  0 of 12 places taken

What Look shows of ORDERS.DAT
  line  begins at  text
$(shown_lines)

All 47 steps went as expected.
TEXT
