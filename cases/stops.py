#!/usr/bin/env python3
"""Each counted call of an end stopped or failed in turn: cases/stops.py PROGRAM

Plays `PROGRAM replay` (crates/dex/out/dex where none is given) on one adjusted delivery. One table arms a stop of each pick, or a failure, at
each of the first 30 counted calls of each end, and then plays three clean sessions: each play ends as the undisturbed one. A
second table says how many counted calls an end makes in its first clean session and in one behind it.
Its last line is 'N passed, N failed'; its status is 1 where one failed.
"""
import os
import subprocess
import sys
from concurrent.futures import ThreadPoolExecutor

FRONT = """HANDHELD HH00000001 RR00000001
RECEIVER RR00000001 HH00000001
DRAFTS
DRAFT 100001 D 20240229 - - - -
SIGN JONES
TOLERANCE 500
ITEM 1 12 EA 012345678905 1.25
ITEM 2 3 EA 012345678912 .3333
END
COUNTS
COUNT 100001
SIGN SMITH
COUNTER NO
ITEM 1 10 1.25
ITEM 2 3 .3333
END
EVENTS
"""
FINAL = """FINAL 100001 D 20240229 LEVEL 1 LINES 2 QUANTITY 13 AMOUNT 1350
ITEM 1 10 1.2500 1250
ITEM 2 3 0.3333 100
"""
SETTLED = f"HANDHELD\n{FINAL}SESSION COMPLETE\nRECEIVER\n{FINAL}SESSION COMPLETE\n"
CALLS = 30
# the counted calls of an end: those of its first clean session, and those of one behind it
COUNTED = {"H": (25, 9), "R": (24, 9)}


def played(program, events):
    """Status and output of a replay of these events."""
    script = FRONT + "".join(f"{event}\n" for event in events)
    done = subprocess.run([program, "replay"], input=script.encode(), capture_output=True, timeout=60)
    return done.returncode, done.stdout.decode("latin-1") + done.stderr.decode("latin-1")


def armings():
    for end in "HR":
        for call in range(1, CALLS + 1):
            yield from (f"STOP {end} {call} {pick}" for pick in ("KEEP", "DROP", "HALF"))
            yield f"FAIL {end} {call}"


def healed(program, arming):
    """What is wrong with three clean sessions behind an arming."""
    got = played(program, [arming, "CLEAN", "CLEAN", "CLEAN"])
    return "" if got == (0, SETTLED) else f"{arming}: status {got[0]}, printed {got[1]!r}"


def session_of(end, output):
    """The last line of an end in a report."""
    handheld, receiver = output.split("RECEIVER\n")
    return (handheld if end == "H" else receiver).splitlines()[-1]


def falls(program, before, end, call):
    """Whether a failure that is armed at this call falls in the clean session behind these events."""
    _, output = played(program, [*before, f"FAIL {end} {call}", "CLEAN"])
    return session_of(end, output) == "SESSION FAULT STATION"


def counted(program, end, which):
    """What is wrong with the number of counted calls of an end in its first clean session, or in a second one."""
    before, wanted = [["CLEAN"] * which, COUNTED[end][which]]
    wrong = [call for call in range(1, wanted + 3) if falls(program, before, end, call) != (call <= wanted)]
    return f"session {which + 1} of {end} has not {wanted} counted calls, by call {wrong[0]}" if wrong else ""


def told(wrong):
    """Prints what is wrong, and behind it how much passed and failed; the status of the script."""
    for line in filter(None, wrong):
        print(line)
    failed = sum(map(bool, wrong))
    print(f"{len(wrong) - failed} passed, {failed} failed")
    return 1 if failed else 0


def main():
    program = os.path.abspath(sys.argv[1] if len(sys.argv) > 1 else "crates/dex/out/dex")
    with ThreadPoolExecutor(os.cpu_count()) as pool:
        plays = [pool.submit(healed, program, arming) for arming in armings()]
        plays += [pool.submit(counted, program, end, which) for end in "HR" for which in (0, 1)]
        wrong = [one.result() for one in plays]
    return told(wrong)


if __name__ == "__main__":
    sys.exit(main())
