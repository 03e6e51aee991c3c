#!/usr/bin/env python3
"""Ends that are spoken to on a port: cases/partners.py PROGRAM

Runs one end of PROGRAM (crates/dex/out/dex where none is given) on a pseudo-terminal, says to it what a partner would, and looks at its status, its
report and its journal: a port that goes away, a journal that is full, and one that has just so much room.
Its last line is 'N passed, N failed'; its status is 1 where one failed.
"""
import os
import subprocess
import sys

sys.path.append(os.path.join(os.path.dirname(os.path.abspath(__file__)), "../examples"))

import files
from files import DELIVERY, FAULT, HEADER, JOURNAL_BYTES, PROGRAM, content, filled, remainder, taken_entry, write
from join import port


def frame(kind, text):
    """A header (kind 1) or a last block (kind 2), with its check."""
    return b"\x10" + bytes([kind]) + text + b"\x10\x03" + remainder(text + b"\x03").to_bytes(2, "little")


def partnered(name, role, stands, said, wanted, after):
    """One end on a journal, to which these bytes are said on its port; the port goes away once it has spoken where nothing is."""
    write("end.dex", stands)
    cable_side, end_side, name_of_port = port(tenths=1)
    os.write(cable_side, said)
    job = subprocess.Popen([PROGRAM, role, "end.dex", name_of_port], stdin=subprocess.DEVNULL, stdout=subprocess.PIPE, stderr=subprocess.PIPE)
    if not said:
        os.read(cable_side, 1)
        os.close(cable_side)
    printed, errors = job.communicate(timeout=60)
    os.close(end_side)
    if said:
        os.close(cable_side)
    wrong = [] if (job.returncode, printed, errors) == (*wanted, b"") else [f"status {job.returncode}, printed {printed[-200:]} {errors[:200]}"]
    if content("end.dex") != after:
        wrong.append("the journal is another")
    os.unlink("end.dex")
    files.told(name, wrong)


def partners():
    """Ends that are spoken to: a port that goes away, and journals that have no room, or just so much, for the set that comes."""
    partnered("a port that goes away in mid-session", "handheld", HEADER, b"", (6, FAULT), HEADER)
    block = b"DXS*HH00000001*DX*004010UCS*1*RR00000001\r\n" + DELIVERY + b"DXE*1*1\r\n"
    session = b"\x05" + frame(1, b"HH00000001SR01L01") + b"\x04" + b"\x100\x101" + b"\x05" + frame(2, block) + b"\x04"
    full = b"".join(filled(JOURNAL_BYTES)[0])
    partnered("an end whose journal is full", "receiver", full, session, (12, b"FULL %d\n" % (JOURNAL_BYTES + len(taken_entry(DELIVERY)))), full)
    room, taken = filled(JOURNAL_BYTES - len(taken_entry(DELIVERY)))
    opened = b"".join(b"OPEN %d LEVEL 0\n" % number for number in [*(number for number, _ in taken), 100001])
    partnered("an end whose journal has just so much room", "receiver", b"".join(room), session, (8, opened + b"SESSION SILENT\n"),
              b"".join(room[:-1]) + taken_entry(DELIVERY) + b"\0")


if __name__ == "__main__":
    sys.exit(files.main((partners,)))
