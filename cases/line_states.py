#!/usr/bin/env python3
"""What an end of a line says, held to a table that others wrote: cases/line_states.py PROGRAM

Runs PROGRAM (crates/line_trace/out/line_trace where none is given) over worked exchanges and over 100,000 random events for each
role, and compares each line with the model in line_table.py. Its last line is 'N passed, N failed'; its status is 1 where one failed.
"""
import random
import subprocess
import sys

from line_table import ACK0, ACK1, ENQ, EOT, NAK, Line

SUPPLIER, RECEIVER = "HH00000001", "RR00000001"
DELIVERY = (
    "ST*894*0001\r\nG82*D*100001*****20240229\r\nLS*0100\r\nG83*1*12*EA*012345678905****1.25\r\n"
    "G83*2*3*EA*012345678912****.3333\r\nLE*0100\r\nG84*15*1600\r\nG86*JONES\r\nG85*C60A\r\nSE*10*0001\r\n"
)
LINES = 12
ACCEPTANCE = "ST*895*0001\r\nG87*R*D*100001*C60A*0\r\nG84*15*1600\r\nG86*SMITH\r\nG85*4706\r\nSE*6*0001\r\n"
EVENTS = 100_000

# What one end hears of the other, by its letter; `f` and `a` are the other end's text, in a block that others follow and in a last one.
FRAMES = {
    "e": ENQ, "0": ACK0, "1": ACK1, "n": NAK, "t": EOT, "d": ("DAMAGED",), "x": ("BAD",),
    "h": ("HEADER", "HH00000001SR01L01"), "w": ("HEADER", "HH00000002SR01L01"), "m": ("HEADER", "HH0000001SR01L01"),
    "r": ("HEADER", "00RR00000001R01L01"), "v": ("HEADER", "00RR00000002R01L01"), "c": ("HEADER", "02RR00000001R01L01"),
    "z": ("BLOCK", "", True), "b": ("BLOCK", "A", False), "l": ("BLOCK", "B", True),
}


def check_of(text):
    """The remainder of a text: polynomial x^16 + x^15 + x^2 + 1, the lowest bit first."""
    check = 0
    for byte in text.encode():
        check ^= byte
        for _ in range(8):
            check = check >> 1 ^ (0xA001 if check & 1 else 0)
    return check


def long_delivery():
    """A delivery of more lines than a block has room for."""
    items = "".join(f"G83*{n}*12*EA*012345678905****1.25\r\n" for n in range(1, LINES + 1))
    text = f"ST*894*0001\r\nG82*D*100001*****20240229\r\nLS*0100\r\n{items}LE*0100\r\nG84*{12 * LINES}*{1500 * LINES}\r\nG86*JONES\r\n"
    return text + f"G85*{check_of(text):04X}\r\nSE*{LINES + 8}*0001\r\n"


def sent(own, peer, text):
    """The transmission of one set."""
    return f"DXS*{own}*DX*004010UCS*1*{peer}\r\n{text}DXE*1*1\r\n"


def texts_of(delivery):
    """What each end's own turns have."""
    return {"S": sent(SUPPLIER, RECEIVER, delivery), "R": sent(RECEIVER, SUPPLIER, ACCEPTANCE)}


def blocks_of(text):
    """The fewest blocks of whole lines, each with at most 245 bytes."""
    blocks = [""]
    for line in text.splitlines(True):
        if len(blocks[-1]) + len(line) > 245:
            blocks.append("")
        blocks[-1] += line
    return [(block, block is blocks[-1]) for block in blocks]


def quoted(text):
    return '"' + text.replace("\\", "\\\\").replace('"', '\\"').replace("\r", "\\r").replace("\n", "\\n") + '"'


def shown(said):
    if said is None:
        return "-"
    if said[0] == "BLOCK":
        return ("LAST " if said[2] else "BLOCK ") + quoted(said[1])
    return said[0] + "".join(" " + quoted(word) for word in said[1:])


class Model:
    """One end by the table, and the line that the program is to print."""

    def __init__(self, role, delivery):
        self.role = role
        self.texts = texts_of(delivery)
        self.begin()

    def begin(self):
        self.end = Line(self.role, *((SUPPLIER, RECEIVER) if self.role == "S" else (RECEIVER, SUPPLIER)))
        return self.told(self.end.said)

    def told(self, said):
        line = shown(said)
        if self.end.turn() is not None:
            line += " TURN " + quoted(self.end.turn())
        ending = self.end.end()
        if ending is not None:
            word, *more = ending
            more = [str(int(x)) if word == "REFUSED" else quoted(x) if word == "WRONG" else str(x) for x in more]
            line += " " + " ".join([word, *more])
        return line

    def play(self, event):
        other = self.texts["R" if self.role == "S" else "S"][:245]
        if event in FRAMES:
            return self.told(self.end.hear(FRAMES[event]))
        if event in "fa":
            return self.told(self.end.hear(("BLOCK", other, event == "a")))
        if event == "q":
            return self.told(self.end.quiet())
        if event == "u":
            return self.told(self.end.unplug())
        if event in "gG":
            blocks = blocks_of(self.texts[self.role]) if event == "g" else []
            return self.told(self.end.give(blocks) if self.end.turn() is not None else None)
        return self.begin()


def likely(model, said):
    """What a partner that means well might say next."""
    if model.end.end() is not None:
        return "s"
    if model.end.turn() is not None:
        return "ggG"
    if said is None or said.startswith("EOT") or said == "-":
        return "eqq"
    if said.startswith("ENQ"):
        return "0"
    if said.startswith(("HEADER", "LAST", "BLOCK")):
        return "1101" if model.end.k % 2 else "0010"
    return "hwt" if model.role == "R" and model.end.stage == "FIRST" else "rrrt" if model.end.stage == "SECOND" else "bfflatt"


def wander(role, seed, delivery):
    """Random events, two in three of them likely ones, with rows of one event in them, and the lines of the model."""
    choice = random.Random(seed)
    model = Model(role, delivery)
    lines, events = [model.told(model.end.said)], []
    every, row = "".join(FRAMES) + "faqqgGs", ""
    while len(events) < EVENTS:
        if not row:
            row = choice.choice(likely(model, lines[-1]) if choice.random() < 0.67 else every)
            if choice.random() < 0.01:
                row = choice.choice("qqnn01eu") * choice.choice((1, 9, 10, 11, 29, 30))
        event, row = row[0], row[1:]
        events.append(event)
        lines.append(model.play(event))
    return "".join(events), lines, delivery


def play(role, events):
    model = Model(role, DELIVERY)
    return events, [model.told(model.end.said)] + [model.play(event) for event in events], DELIVERY


def worked():
    """A header that is refused ten times, thirty Quiets, and both ends of a clean exchange of 26 frames."""
    yield "S", play("S", "0" + 10 * "n")
    yield "S", play("S", 30 * "q")
    supplier = play("S", "01" + "ert" + "g01" + "eat" + "G0" + "et")
    receiver = play("R", "eht" + "01" + "eat" + "g01" + "et" + "G0")
    said = [[line.split(" ")[0] for line in lines if line[0] not in "-"] for _, lines, _ in (supplier, receiver)]
    assert sum(map(len, said)) == 26, said
    assert supplier[1][-1] == "- COMPLETE" and receiver[1][-1] == "EOT COMPLETE"
    yield "S", supplier
    yield "R", receiver


def differs(program, role, events, lines, delivery):
    """Where the program prints another line than the model, or none."""
    done = subprocess.run([program, role, events, delivery, ACCEPTANCE], stdout=subprocess.PIPE, text=True, timeout=120)
    printed = done.stdout.splitlines()
    for at, line in enumerate(lines):
        told = printed[at] if at < len(printed) else None
        if told != line:
            return f"{role}, behind {events[max(0, at - 12):at]!r} (event {at}): {told!r}, not {line!r}"
    return None if len(printed) == len(lines) else f"{role}: {len(printed)} lines, not {len(lines)}"


def main():
    program = sys.argv[1] if len(sys.argv) > 1 else "crates/line_trace/out/line_trace"
    plays = list(worked()) + [(role, wander(role, seed, long_delivery())) for role, seed in (("S", 894), ("R", 895))]
    wrong = [told for told in (differs(program, role, *play) for role, play in plays) if told]
    for told in wrong:
        print(told)
    print(f"{len(plays) - len(wrong)} passed, {len(wrong)} failed")
    sys.exit(1 if wrong else 0)


if __name__ == "__main__":
    main()
