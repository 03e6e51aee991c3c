#!/usr/bin/env python3
"""The numbers in the histories of docs/DECISIONS.md, section "Two lives", from the rules in words and not by the program: a forged block whose check
fits, and a set put together from blocks of two deliveries that has the seal of one of them. Ends with status 0 where they are right."""
import sys


def crc(data):
    state = 0
    for byte in data:
        state ^= byte
        for _ in range(8):
            state = state >> 1 ^ 0xA001 if state & 1 else state >> 1
    return state


def delivery(control, number, upcs, pieces=1):
    """A set 894 of a line for each UPC, each of so many pieces at 1.00."""
    rows = [f"ST*894*{control:04}", f"G82*D*{number}*****20240229", "LS*0100"]
    rows += [f"G83*{n}*{pieces}*EA*{upc}****1" for n, upc in enumerate(upcs, 1)]
    rows += ["LE*0100", f"G84*{pieces * len(upcs)}*{100 * pieces * len(upcs)}", "G86*JONES"]
    text = "".join(row + "\r\n" for row in rows).encode()
    return text + f"G85*{crc(text):04X}\r\nSE*{len(rows) + 2}*{control:04}\r\n".encode()


def rows_of(text):
    return [row.split("*") for row in text.decode().split("\r\n")[:-1]]


def seal(text):
    """Control number and integrity value."""
    rows = rows_of(text)
    return rows[0][2], rows[-2][1]


def is_right(text):
    """Whether its count, its totals, its control numbers and its integrity value are right, and no line comes twice."""
    rows = rows_of(text)
    lines = [row for row in rows if row[0] == "G83"]
    pieces = sum(int(row[2]) for row in lines)
    return (rows[-1] == ["SE", str(len(rows)), rows[0][2]] and rows[-4][1:] == [str(pieces), str(100 * pieces)]
            and len({row[1] for row in lines}) == len(lines) and rows[-2][1] == f"{crc(text[:text.index(b'G85*')]):04X}")


def blocks(sets):
    """The blocks of a transmission of these sets: whole segments, a G85 with its SE, as long as they have at most 245 bytes."""
    text = b"DXS*HH00000001*DX*004010UCS*1*RR00000001\r\n" + b"".join(sets) + f"DXE*1*{len(sets)}\r\n".encode()
    units, out = text.replace(b"\r\nSE*", b"\r\0SE*").split(b"\r\n")[:-1], [b""]
    for unit in units:
        unit = unit.replace(b"\r\0", b"\r\n") + b"\r\n"
        if len(out[-1]) + len(unit) > 245:
            out.append(b"")
        out[-1] += unit
    return out


def main():
    usual = "012345678905"
    signed, forged = delivery(1, "100001", [usual]), delivery(1, "100001", ["000000280979"], 2)
    twelve = [usual] * 12
    one, two = delivery(1, "100001", twelve), delivery(2, "100002", twelve[:7] + ["000000207869"] + twelve[8:])
    first, second = blocks([one]), blocks([two])
    joined = b"".join([first[0], second[1], first[2]])
    mixed = joined[joined.index(b"ST*"):joined.index(b"DXE*")]
    facts = {
        "a forged set has the signed one's seal": seal(signed) == seal(forged) == ("0001", "6A52"),
        "it is right, and another text": is_right(signed) and is_right(forged) and signed != forged,
        "both deliveries have these blocks": [len(b) for b in first] == [len(b) for b in second] == [241, 235, 42],
        "the mixed set is right, and nobody signed it": is_right(mixed) and mixed not in (one, two),
        "it has the first one's seal": seal(mixed) == seal(one) == ("0001", "3ADB") != seal(two),
    }
    for fact, holds in facts.items():
        print("ok" if holds else "WRONG", fact)
    return 0 if all(facts.values()) else 1


sys.exit(main())
