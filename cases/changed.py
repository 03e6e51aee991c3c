#!/usr/bin/env python3
"""What comes of a byte that was changed, held to a reading of FORMATS.md: cases/changed.py PROGRAM

Runs PROGRAM (crates/dex/out/dex where none is given) on a turn of the line and on a journal, each with one byte changed or cut short,
and on what a stop may leave behind a closed gate, and compares what it prints with two readers written from the formats' words.
Its last line is 'N passed, N failed'; its status is 1 where one failed.
"""
import os
import subprocess
import sys
import tempfile
from concurrent.futures import ThreadPoolExecutor

# an enquiry, its reply, the last block with the text `A`, and the end
TURN = b"\x05\x100\x10\x02A\x10\x03\x70\x51\x04"

DELIVERY = (
    b"ST*894*0001\r\nG82*D*100001*****20240229\r\nLS*0100\r\nG83*1*12*EA*012345678905****1.25\r\nG83*2*3*EA*012345678912****.3333\r\n"
    b"LE*0100\r\nG84*15*1600\r\nG86*JONES\r\nG85*C60A\r\nSE*10*0001\r\n"
)
ACCEPTANCE = b"ST*895*0001\r\nG87*R*D*100001*C60A*0\r\nG84*15*1600\r\nG86*SMITH\r\nG85*4706\r\nSE*6*0001\r\n"
SHOWN = [b"SIGNED 894 0001 100001 LEVEL 0 CHECK C60A", b"TOOK 895 0001 100001 ACCEPTS 0 C60A CHECK 4706"]
OPEN, CLOSED = b"\xa5", b"\0"
MOST_PAYLOAD = 262_144

# of the bytes that frame an entry and of the header, these are tried: on both sides of each bound that the format has
VALUES = b"\0\1\2\4\5\n/09:@AHRSTZ[a\xa4\xa5\xff"


def check_of(data):
    """CRC-16/ARC, bit by bit."""
    check = 0
    for byte in data:
        check ^= byte
        for _ in range(8):
            check = check >> 1 ^ (0xA001 if check & 1 else 0)
    return check


# ---- the line

SINGLE = {0x05: b"ENQ", 0x15: b"NAK", 0x04: b"EOT"}
REPLY = {0x30: b"ACK0", 0x31: b"ACK1"}


def is_text(byte):
    return 0x20 <= byte <= 0x7E or byte in b"\r\n"


def frame_at(data, at):
    """The line that a frame at a place is printed as, and the place behind it; or the word of its refusal, and nothing."""
    if data[at] in SINGLE:
        return SINGLE[data[at]], at + 1
    kind = data[at + 1] if data[at] == 0x10 and at + 1 < len(data) else None
    if kind in REPLY:
        return REPLY[kind], at + 2
    if kind not in (1, 2):
        return b"BAD", None
    end = at + 2
    while end < len(data) and is_text(data[end]):
        end += 1
    text, tail = data[at + 2:end], data[end:end + 4]
    closings = (3,) if kind == 1 else (3, 0x17)
    if not text or len(tail) < 4 or tail[0] != 0x10 or tail[1] not in closings:
        return b"BAD", None
    if check_of(text + tail[1:2]) != int.from_bytes(tail[2:], "little"):
        return b"DAMAGED", None
    word = b"HEADER " + text if kind == 1 else (b"LAST %d" if tail[1] == 3 else b"BLOCK %d") % len(text)
    return word, end + 4


def captured(data):
    """The report of a capture, and the status."""
    at, lines = 0, b""
    while at < len(data):
        word, behind = frame_at(data, at)
        if behind is None:
            return lines + b"REFUSED %d %s\n" % (at, word), 3
        lines, at = lines + word + b"\n", behind
    return lines + b"OK\n", 0


def lines_of_turns():
    for place in range(len(TURN)):
        for value in range(256):
            changed = TURN[:place] + bytes([value]) + TURN[place + 1:]
            yield f"a turn with {value} at {place}", ["check", "line"], changed, None, captured(changed)
    for size in range(len(TURN)):
        yield f"{size} bytes of a turn", ["check", "line"], TURN[:size], None, captured(TURN[:size])


# ---- the journal

def entry(kind, payload):
    return OPEN + kind + len(payload).to_bytes(4, "big") + payload


HEADER = b"DEXJ1HHH00000001RR00000001\n"
ENTRIES = [(b"S", DELIVERY), (b"T", ACCEPTANCE)]
JOURNAL = HEADER + b"".join(entry(*it) for it in ENTRIES) + CLOSED


def header_fault(image):
    """Where the header is refused, if it is."""
    for place in range(27):
        if place >= len(image):
            return place
        byte = image[place:place + 1]
        if place < 5 or place == 26:
            right = byte == HEADER[place:place + 1]
        elif place == 5:
            right = byte in (b"H", b"R")
        else:
            right = byte.isdigit() or byte.isalpha() and byte.isupper()
        if not right:
            return place
    return None


def entry_fault(image, place):
    """Where the entry whose kind stands at a place is refused by its form, if it is."""
    if len(image) <= place:
        return len(image)
    if image[place:place + 1] not in (b"S", b"T"):
        return place
    for at in range(place + 1, place + 5):
        if len(image) <= at:
            return len(image)
        if at == place + 1 and image[at] > 0:
            return at
        if at == place + 2 and image[at] > MOST_PAYLOAD >> 16:
            return at
    size = int.from_bytes(image[place + 1:place + 5], "big")
    if not 0 < size <= MOST_PAYLOAD:
        return place + 4
    return len(image) if len(image) <= place + 5 + size else None


def entries_of(image):
    """The entries of an image with their places, and where it is refused by its form, if it is."""
    fault = header_fault(image)
    if fault is not None:
        return [], fault
    at, found = 27, []
    while image[at:at + 1] == OPEN:
        fault = entry_fault(image, at + 1)
        if fault is not None:
            return [], fault
        size = int.from_bytes(image[at + 2:at + 6], "big")
        found.append((at + 1, image[at + 1:at + 2], image[at + 6:at + 6 + size]))
        at += 6 + size
    return found, len(image) if at >= len(image) else None


def opened(image):
    """The report of a show, and the status. By the signing rules an image may have the two entries, or the first, of a handheld alone."""
    found, fault = entries_of(image)
    if fault is None:
        wrong = (place for number, (place, *it) in enumerate(found) if image[5:6] != b"H" or tuple(it) not in ENTRIES[number:number + 1])
        fault = next(wrong, None)
    if fault is not None:
        return b"NOT A JOURNAL %d\n" % fault, 7
    role = {b"H": b"HANDHELD", b"R": b"RECEIVER"}[image[5:6]]
    lines = [b"%d %s\n" % (number + 1, SHOWN[number]) for number in range(len(found))]
    return b"JOURNAL %s %s %s\n" % (role, image[6:16], image[16:26]) + b"".join(lines) + b"ENTRIES %d\n" % len(found), 0


def is_framing(place):
    """Whether a byte of the journal is of no payload."""
    at = 27
    for _, payload in ENTRIES:
        if at + 6 <= place < at + 6 + len(payload):
            return False
        at += 6 + len(payload)
    return True


def changed_images():
    for place, byte in enumerate(JOURNAL):
        for value in VALUES if is_framing(place) else {byte ^ 1, byte ^ 0x20, 0x20} - {byte}:
            yield f"a journal with {value} at {place}", JOURNAL[:place] + bytes([value]) + JOURNAL[place + 1:]
    for size in range(len(JOURNAL)):
        yield f"{size} bytes of a journal", JOURNAL[:size]


def stopped_images():
    """What a stop leaves of a flush of both entries: some of their bytes behind a gate that is still closed, and the gate open behind all."""
    batch = JOURNAL[28:]
    for size in range(len(batch) + 1):
        yield f"{size} bytes behind a closed gate", HEADER + CLOSED + batch[:size]
        yield f"all but {size} bytes lost behind a closed gate", HEADER + CLOSED + batch[:size] + bytes(len(batch) - size)
    yield "both entries behind an open gate", JOURNAL


def shows():
    for name, image in [*changed_images(), *stopped_images()]:
        yield name, ["show", "journal"], b"", image, opened(image)


def difference(program, name, words, text, image, wanted):
    """What differs in a run, or an empty text."""
    with tempfile.TemporaryDirectory() as folder:
        if image is not None:
            with open(f"{folder}/journal", "wb") as file:
                file.write(image)
        done = subprocess.run([program, *words], input=text, capture_output=True, cwd=folder, timeout=20)
    got = done.stdout, done.returncode
    return "" if got == wanted else f"{name}: wanted {wanted}, got {got}"


def main():
    program = os.path.abspath(sys.argv[1] if len(sys.argv) > 1 else "crates/dex/out/dex")
    rows = [*lines_of_turns(), *shows()]
    with ThreadPoolExecutor(os.cpu_count()) as threads:
        told = [it for it in threads.map(lambda row: difference(program, *row), rows) if it]
    print("".join(f"{it}\n" for it in told[:20]) + f"{len(rows) - len(told)} passed, {len(told)} failed")
    return 1 if told else 0


if __name__ == "__main__":
    sys.exit(main())
