#!/usr/bin/env python3
"""Both ends of a cable on this machine: examples/join.py PROGRAM HANDHELD_JOURNAL DRAFTS RECEIVER_JOURNAL COUNTS

Runs `PROGRAM handheld` and `PROGRAM receiver` on two pseudo-terminals and passes on what they say, until both have ended. It prints both reports; its
status is the greater of theirs.
"""
import os
import pty
import select
import subprocess
import sys
import tempfile
import termios
import tty


def port(tenths=10):
    """A pseudo-terminal: the side of the cable, the side of the end, and its name. A read of it that gets no byte for so many tenths of a second is a silence."""
    cable_side, end_side = pty.openpty()
    tty.setraw(end_side)
    modes = termios.tcgetattr(end_side)
    modes[6][termios.VMIN], modes[6][termios.VTIME] = 0, tenths
    termios.tcsetattr(end_side, termios.TCSANOW, modes)
    return cable_side, end_side, os.ttyname(end_side)


def main():
    program, *files = sys.argv[1:]
    ends = [port(), port()]
    jobs, reports = [], [tempfile.TemporaryFile(), tempfile.TemporaryFile()]
    for role, end, journal, told, report in zip(("handheld", "receiver"), ends, files[0::2], files[1::2], reports):
        with open(told, "rb") as source:
            jobs.append(subprocess.Popen([program, role, journal, end[2]], stdin=source, stdout=report))
    sides = [end[0] for end in ends]
    while any(job.poll() is None for job in jobs):
        for side in select.select(sides, [], [], 0.1)[0]:
            os.write(sides[1 - sides.index(side)], os.read(side, 512))
    for report in reports:
        report.seek(0)
        sys.stdout.write(report.read().decode())
    return max(job.returncode for job in jobs)


if __name__ == "__main__":
    if len(sys.argv) != 6:
        sys.exit(__doc__)
    sys.exit(main())
