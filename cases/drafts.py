#!/usr/bin/env python3
"""Texts of drafts and of counts, and the choices by them, held to a table and to a model: cases/drafts.py PROGRAM

Runs PROGRAM (crates/lines_trace/out/lines_trace where none is given) once: over the rows of draft_rows.py, which have every fault of every
line kind, what editors make of a text, the limits and worked choices; and over random texts and deliveries. Compares what it prints with
the rows, and with the model in plain_texts.py. Its last line is 'N passed, N failed'; its status is 1 where one failed.
"""
import subprocess
import sys
from pathlib import Path

import draft_rows as rows
from plain_texts import read, receiver, supplier
from random_drafts import Deliveries, Texts, sealed

EXAMPLES = Path(__file__).resolve().parent.parent / "examples"
TEXTS, DELIVERIES = 4_000, 600


def latin(text):
    """Each character of a text is a byte."""
    return text.encode("latin-1")


class Run:
    """Parts of the program's input in their order, each with its row and, where it is judged, the lines that are wanted of it."""

    def __init__(self):
        self.parts, self.wrong, self.names = [], {}, set()

    def part(self, name, word, text, wanted=None):
        self.names.add(name)
        self.parts.append((name, latin(word + "\n") + text, None if wanted is None else list(wanted)))

    def text(self, name, kind, text, told=None):
        """A text, held to the model, which is held to what is told of it where it is."""
        said, refusal = read(kind, text)
        shown = [refusal] if refusal else [line for part in said for line in part.shown()]
        if told is not None and told != shown:
            self.wrong[name] = f"{name}: by the model {shown}, by the row {told}"
        if refusal or kind == "DRAFTS":
            self.part(name, kind, text, shown)
            return
        self.part(name, kind, text, [])
        for count in said:
            self.part(name, "COUNT", count.number, count.shown())

    def choices(self, name, own, wanted):
        """What is done on the delivery of the last sets."""
        self.part(name, "CHOOSE", latin("-" if own is None else str(own)), wanted)

    def play(self, program):
        """How many rows went well, and a line for each that did not."""
        given = b"\f".join(text for _, text, _ in self.parts)
        done = subprocess.run([program], input=given, stdout=subprocess.PIPE, timeout=120)
        printed = done.stdout.decode("latin-1").split("\f") if done.returncode == 0 else []
        printed += [f"nothing, with status {done.returncode}"] * (len(self.parts) - len(printed))
        for (name, text, wanted), told in zip(self.parts, printed):
            if wanted is not None and told.splitlines() != wanted:
                self.wrong.setdefault(name, f"{name}: {text[:200]!r}: {told!r}, not {wanted}")
        return len(self.names) - len(self.wrong), list(self.wrong.values())


# ---- rows by hand


def take_rows(run):
    for kind, faults in (("DRAFTS", rows.DRAFT_FAULTS), ("COUNTS", rows.COUNT_FAULTS)):
        for front, place, lines in faults:
            for line, reason in lines:
                told = f"REFUSED {place} {reason}"
                run.text(f"{kind}, {line[:40]!r}: {told}", kind, latin(front + line + "\n"), [told])
    for kind, text, size in rows.CUT:
        run.text(f"{kind} that end at {size}", kind, latin(text), [f"REFUSED {size} LINE"])
    for at, (name, kind, text, told) in enumerate(rows.OTHERS):
        run.text(f"{kind}, {name} ({at})", kind, latin(text), told and [told])
    for at, (kind, text, told) in enumerate(rows.LIMITS):
        run.text(f"{kind}, limits ({at})", kind, latin(text), told and [told])
    for at, (kind, text, told) in enumerate(rows.READ):
        run.text(f"{kind}, what is said ({at})", kind, latin(text), told)


def set_of(text):
    """The set of an example, or one that is sealed here."""
    return (EXAMPLES / text).read_bytes() if text.endswith((".894", ".895")) else latin(sealed(text)[0])


def take_choices(run):
    for who, kind, other, choices in (("SUPPLIER", "DRAFTS", "COUNTS", rows.SUPPLIER), ("RECEIVER", "COUNTS", "DRAFTS", rows.RECEIVER)):
        for at, (text, sets, own, told, *lines) in enumerate(choices):
            name = f"{who}, choice {at}"
            for made_by in sets:
                run.part(name, "SET", set_of(made_by))
            run.part(name, kind, latin(text), None if kind == "DRAFTS" else [])
            run.part(name, other, b"none", ["REFUSED 0 LINE"])
            run.choices(name, own, [f"{who} {told}", *sum(lines, [])])


# ---- random ones


def take_texts(run):
    for kind, seed in (("DRAFTS", 894), ("COUNTS", 895)):
        texts = Texts(seed)
        for _ in range(TEXTS):
            run.text(f"random texts of {kind}", kind, texts.text(kind))


def take_deliveries(run):
    deliveries, name = Deliveries(896), "choices on random deliveries"
    for _ in range(DELIVERIES):
        for seen, text in deliveries.versions():
            run.part(name, "SET", latin(text), seen.shown())
        own = deliveries.own_amount(seen)
        drafts, counts = latin(deliveries.drafts(seen, own)), latin(deliveries.counts(seen))
        run.part(name, "DRAFTS", drafts)
        run.part(name, "COUNTS", counts, [])
        run.choices(name, own, supplier(read("DRAFTS", drafts)[0], seen, own) + receiver(read("COUNTS", counts)[0], seen))


def main():
    run = Run()
    for take in (take_rows, take_choices, take_texts, take_deliveries):
        take(run)
    passed, wrong = run.play(sys.argv[1] if len(sys.argv) > 1 else "crates/lines_trace/out/lines_trace")
    for told in wrong:
        print(told)
    print(f"{passed} passed, {len(wrong)} failed")
    sys.exit(1 if wrong else 0)


if __name__ == "__main__":
    main()
