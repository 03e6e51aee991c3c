#!/usr/bin/env python3
"""noise.py PROGRAM

Clean sessions at the edge of what an end may hear: 40 deliveries of 999 lines stay below 2,000,000 bytes, and one clean session settles them.
Of 55 the receiver hears more, so that its session ends as noise and some deliveries stay open; the next clean session settles these too.
Of deliveries whose sets have 1,299 blocks, as many as are promised to be settled by one clean session, all are final; and so they are with one
block more, of which nothing is promised. The last line is 'N passed, M failed'.
"""
import subprocess
import sys

LINES = 999
MOST_BLOCKS = 1_299


def script(lines_of_each, events):
    drafts, counts = [], []
    for number, lines in enumerate(lines_of_each, 500_001):
        drafts += [f"DRAFT {number} D 20240229 WORD1 WORD2 - -", "SIGN JONES", "TOLERANCE 0"]
        counts += [f"COUNT {number}", "SIGN SMITH", "COUNTER NO"]
        drafts += [f"ITEM {line} 12 EA {line * 977:012d} 1.25" for line in range(1, lines + 1)]
        counts += [f"ITEM {line} 12 1.25" for line in range(1, lines + 1)]
        drafts.append("END")
        counts.append("END")
    head = ["HANDHELD HH00000001 RR00000001", "RECEIVER RR00000001 HH00000001", "DRAFTS"]
    return "\n".join([*head, *drafts, "COUNTS", *counts, "EVENTS", *events]) + "\n"


def cut(units):
    """How many blocks of at most 245 bytes take these units in turn."""
    blocks, room = 0, 0
    for unit in units:
        if unit > room:
            blocks, room = blocks + 1, 245
        room -= unit
    return blocks


def blocks_of(lines):
    """The blocks of a delivery's base record and its acceptance, each cut alone, with control numbers of nine digits."""
    total = 12 * lines
    rows = ["ST*894*999999999", "G82*D*500001*WORD1*WORD2***20240229", "LS*0100"]
    rows += [f"G83*{line}*12*EA*{line * 977:012d}****1.25" for line in range(1, lines + 1)]
    rows += ["LE*0100", f"G84*{total}*{125 * total}", "G86*JONES"]
    seal = len(f"G85*FFFF  SE*{len(rows) + 2}*999999999  ")
    answer = ["ST*895*999999999", "G87*R*D*500001*FFFF*0", f"G84*{total}*{125 * total}", "G86*SMITH"]
    return cut([len(row) + 2 for row in rows] + [seal]) + cut([len(row) + 2 for row in answer] + [len("G85*FFFF  SE*6*999999999  ")])


def deliveries_of(blocks):
    """The lines of seven deliveries that have all, and of one more with which their sets come to so many blocks."""
    rest = blocks - 7 * blocks_of(LINES)
    return [LINES] * 7 + [next(lines for lines in range(1, LINES + 1) if blocks_of(lines) == rest)]


def told(program, lines_of_each, events):
    """The status, how both sessions ended, and how many deliveries each end has as final and as open."""
    ran = subprocess.run([program, "replay"], input=script(lines_of_each, events).encode(), stdout=subprocess.PIPE)
    lines = ran.stdout.decode().split("\n")
    sessions = [line for line in lines if line.startswith("SESSION ")]
    ends = " ".join(lines).split("RECEIVER")
    return ran.returncode, sessions, [(end.count("FINAL "), end.count("OPEN ")) for end in ends]


def main():
    program = sys.argv[1]
    complete = ["SESSION COMPLETE", "SESSION COMPLETE"]
    failed = []
    few = told(program, [LINES] * 40, ["CLEAN"])
    if few != (0, complete, [(40, 0), (40, 0)]):
        failed.append(("40 deliveries", few))
    status, sessions, ends = told(program, [LINES] * 55, ["CLEAN"])
    if status != 1 or sessions[1:] != ["SESSION NOISE"] or ends[1][1] == 0 and ends[0][1] == 0:
        failed.append(("55 deliveries", (status, sessions, ends)))
    healed = told(program, [LINES] * 55, ["CLEAN", "CLEAN"])
    if healed != (0, complete, [(55, 0), (55, 0)]):
        failed.append(("55 deliveries and a second session", healed))
    for blocks in (MOST_BLOCKS, MOST_BLOCKS + 1):
        each = deliveries_of(blocks)
        settled = told(program, each, ["CLEAN"])
        if settled != (0, complete, [(8, 0), (8, 0)]):
            failed.append((f"{blocks} blocks", settled))
    for what, found in failed:
        print(what, found)
    print(f"{5 - len(failed)} passed, {len(failed)} failed")
    return 1 if failed else 0


if __name__ == "__main__":
    sys.exit(main())
