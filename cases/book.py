#!/usr/bin/env python3
"""What the rules of two ends answer, held to rules that others wrote: cases/book.py PROGRAM

Runs PROGRAM (crates/book_trace/out/book_trace where none is given) over a table with each refusal of each call, and over a thousand
random plays, and compares each line with the model in book_rules.py. Then it plays some of them at a book over a file, with flushes at
random places, and compares the file too. Its last line is 'N passed, N failed'; its status is 1 where one failed.
"""
import os
import random
import subprocess
import sys
import tempfile

from book_rules import End, answer_text, base_text, sealed

PLAYS, CALLS, BOOKS = 1_000, 40, 20
PRICES = {"1.25": 125, "2.5": 250, "99.99": 9999, "10.01": 1001}


def lines(*rows):
    """Lines by their DSD numbers: a quantity and a price of each."""
    return {dsd: (quantity, price) for dsd, quantity, price in rows}


TWO = lines((1, 12, "1.25"), (2, 3, "99.99"))
LESS = lines((1, 10, "1.25"))
MORE = lines((1, 11, "1.25"))
MANY = lines(*[(n, 1, "1.25") for n in range(1, 1000)])
NEW = lines((1000, 1, "1.25"))


class Play:
    """Calls at both ends, and what the model says that they answer."""

    def __init__(self):
        self.calls, self.wanted, self.made = ["-"], [], []
        self.ends = {"S": End("S"), "R": End("R")}

    def call(self, end, name, text, wanted=None):
        """A call with a set; where an answer is wanted, the model has to give it too."""
        said = getattr(self.ends[end], name)(text)
        if wanted is not None:
            assert said.startswith(wanted), (said, wanted)
        self.calls.append(f"{end} {name} {text}")
        self.wanted.append(said)
        self.made.append((end, name, text, said))
        return self.ends[end].last()

    def refused(self, end, name, text, wanted):
        """A call of which the model knows nothing, and its refusal."""
        self.calls.append(f"{end} {name} {text}")
        self.wanted.append(wanted)
        self.made.append((end, name, text, wanted))

    def show(self):
        for end in "SR":
            self.calls.append(f"{end} show")
            self.wanted += self.ends[end].shown()


def template(end, number, changes, flag="D"):
    """A set 895 with these lines, whose delivery, lines and signature a call takes."""
    level = 1 if changes else 0
    return answer_text(end, flag, number, 0, level, changes, (0, 0), "JONES" if end == "S" else "SMITH", 1)


def proposed(play, number="100001", rows=TWO, flag="D"):
    """The supplier signs a delivery, and the receiver takes it."""
    text = play.call("S", "propose", base_text(flag, number, rows, "JONES", 7), "SIGNED")
    play.call("R", "take", text, "TOOK")
    return text


def adjusts(play, end, number="100001", changes=LESS):
    """An end signs an adjustment, and the other end takes it."""
    text = play.call(end, "adjust", template(end, number, changes), "SIGNED")
    play.call("R" if end == "S" else "S", "take", text, "TOOK")
    return text


def up_to(play, level, number="100001"):
    """A delivery with proposals up to this level, which both ends know."""
    texts = [proposed(play, number)]
    for at in range(1, level + 1):
        texts.append(adjusts(play, "R" if at % 2 else "S", number, LESS if at % 2 else MORE))
    return texts


def forged(play, end, number="100001", changes=LESS, **other):
    """The answer that the other end of this one would sign to the highest proposal, with some things changed."""
    return play.ends[end].answer_of_other(number, changes, **other)


# ---- the table: each refusal, by the entries that bring it

def take_refusals():
    play = Play()
    # no set; a base record at the supplier, and then one of its own answers
    play.call("S", "take", "ST*894*0001~", "NO at 13: a segment out of order")
    play.call("S", "take", base_text("D", "7", TWO, "JONES", 1), "NO the set is one of the wrong end")
    texts = up_to(play, 2)
    play.call("S", "take", texts[2], "NO the set is one of the wrong end")
    # the wrong end by its letter before a level of the wrong end, and that before a check that names nothing
    play.call("S", "take", forged(play, "S", letter="S", check=1), "NO the set is one of the wrong end")
    play.call("S", "take", forged(play, "S", level=2, check=1), "NO the set is one of the wrong end")
    play.call("S", "take", forged(play, "S", changes={}, level=1, check=1), "NO the set is one of the wrong end")
    # known, also where it would be of a lower level now
    play.call("S", "take", texts[1], "NO the set was taken before")
    play.call("R", "take", texts[0], "NO the set was taken before")
    # a base record of a known delivery
    play.call("R", "take", base_text("D", "100001", LESS, "JONES", 1), "NO the highest level is 2")
    # a check that names nothing, also at a level of which there is a proposal, and in a delivery that is not known
    play.call("S", "take", forged(play, "S", check=1), "NO no set of this end has check 0001")
    play.call("S", "take", forged(play, "S", level=1, check=1), "NO no set of this end has check 0001")
    play.call("S", "take", forged(play, "S", number="5", level=1, check=1), "NO no set of this end has check 0001")
    # the right check at the wrong level
    play.call("S", "take", forged(play, "S", level=1), "NO no set of this end has check")
    # an answer to a lower proposal, also where it would not apply
    first = play.ends["S"].check_at("100001", 0)
    play.call("S", "take", forged(play, "S", level=1, check=first), "NO the highest level is 2")
    play.call("S", "take", forged(play, "S", level=1, check=first, flag="C"), "NO the highest level is 2")
    # an answer that does not apply: the flag before the totals, and these
    play.call("S", "take", forged(play, "S", flag="C", totals=(1, 1)), "NO another delivery")
    play.call("S", "take", forged(play, "S", totals=(1, 1)), "NO totals of 1 are stated")
    play.call("S", "take", forged(play, "S", changes={}, totals=(14, 1)), "NO totals of")
    # behind an acceptance: an answer to the accepted proposal, to a lower one, and a check that names nothing
    accepted = play.call("R", "accept", template("R", "100001", {}), "SIGNED")
    play.call("S", "take", accepted, "TOOK")
    play.call("S", "take", forged(play, "S", level=3), "NO the set with check")
    play.call("S", "take", forged(play, "S", level=1, check=first), "NO the set with check")
    play.call("S", "take", forged(play, "S", level=3, check=1), "NO no set of this end has check 0001")
    # the same acceptance three times: one entry
    play.call("S", "take", accepted, "NO the set was taken before")
    play.call("S", "take", accepted, "NO the set was taken before")
    play.show()
    return play


def too_many_lines():
    play = Play()
    proposed(play, rows=MANY)
    # more lines than a delivery has before the totals
    play.call("S", "take", forged(play, "S", changes=NEW, totals=(1, 1)), "NO 1000 lines are too many")
    play.call("R", "adjust", template("R", "100001", NEW), "NO 1000 lines are too many")
    # and before a line that cannot be written
    play.call("R", "adjust", template("R", "100001", NEW | {1001: (1, "1.25")}), "NO 1001 lines are too many")
    play.show()
    return play


def sign_refusals():
    play = Play()
    base = base_text("D", "100001", TWO, "JONES", 1)
    play.call("R", "propose", base, "NO it is not this end's turn at level 0")
    for name in ("adjust", "accept"):
        play.call("S", name, template("S", "100001", LESS if name == "adjust" else {}), "NO the delivery is not known")
    proposed(play)
    # the receiver proposes none, known or not, and the supplier none that is known
    play.call("R", "propose", base, "NO it is not this end's turn at level 0")
    play.call("S", "propose", base, "NO the delivery is known, up to level 0")
    # the highest proposal is this end's own
    play.call("S", "adjust", template("S", "100001", LESS), "NO it is not this end's turn at level 0")
    play.call("S", "accept", template("S", "100001", {}), "NO it is not this end's turn at level 0")
    adjusts(play, "R")
    play.call("R", "adjust", template("R", "100001", LESS), "NO it is not this end's turn at level 1")
    play.call("S", "propose", base, "NO the delivery is known, up to level 1")
    # behind an acceptance, also where the highest proposal is this end's own
    accepted = play.call("S", "accept", template("S", "100001", {}), "SIGNED")
    play.call("R", "take", accepted, "TOOK")
    for end in "SR":
        play.call(end, "adjust", template(end, "100001", LESS), "NO the set with check")
        play.call(end, "accept", template(end, "100001", {}), "NO the set with check")
    play.show()
    return play


def last_level():
    play = Play()
    up_to(play, 9)
    # whose turn it is before the level
    play.call("R", "adjust", template("R", "100001", LESS), "NO it is not this end's turn at level 9")
    play.call("S", "adjust", template("S", "100001", MORE), "NO no level is left")
    accepted = play.call("S", "accept", template("S", "100001", {}), "SIGNED")
    play.call("R", "take", accepted, "TOOK")
    play.show()
    return play


def long_segments():
    """Sets that can be read and not written: a segment of more than 245 bytes, with its line end."""
    play = Play()
    row = "*1*12*EA*012345678905*UP*A*CS*1.25*24*L*" + "X" * 220
    too_long = f"NO a segment of {len('G83' + row) + 2} bytes is too long"
    base = sealed(894, 1, ["G82*D*100001*****20240229", "LS*0100", "G83" + row, "LE*0100", "G84*12*1500", "G86*JONES"])
    answer = sealed(895, 1, ["G87*R*D*100001*0000*1", "LS*0100", "G89" + row, "LE*0100", "G84*0*0", "G86*SMITH"])
    more = answer.replace("G89*1*", "G89*1000*")
    more = sealed(895, 1, more.split("~")[1:-3])
    play.refused("R", "propose", base, "NO it is not this end's turn at level 0")
    play.refused("S", "propose", base, too_long)
    play.refused("R", "adjust", answer, "NO the delivery is not known")
    proposed(play, rows=MANY)
    play.refused("S", "propose", base, "NO the delivery is known, up to level 0")
    play.refused("R", "adjust", answer, too_long)
    play.refused("R", "adjust", more, "NO 1000 lines are too many")
    play.show()
    return play


# ---- random plays

def any_lines(rng):
    return {dsd: (rng.randint(0, 20), rng.choice(list(PRICES))) for dsd in rng.sample(range(1, 6), rng.randint(1, 3))}


def any_forgery(play, rng, end, number):
    """An answer with some things changed."""
    other = {}
    for name, make in (
        ("letter", lambda: rng.choice("SR")), ("flag", lambda: rng.choice("DC")), ("level", lambda: rng.randint(0, 9)),
        ("check", lambda: rng.randint(0, 0xFFFF)), ("totals", lambda: (rng.randint(0, 20), rng.randint(0, 2000))),
    ):
        if rng.random() < 0.15:
            other[name] = make()
    changes = any_lines(rng) if rng.random() < 0.6 else {}
    if changes and other.get("level") == 0:
        del other["level"]
    return forged(play, end, number, changes, **other)


def any_call(play, rng, sent, admits):
    end = rng.choice("SR")
    number = rng.choice(["1", "2", "77"])
    choice = rng.random()
    if choice < 0.12:
        name, text = "propose", base_text(rng.choice("DC"), number, any_lines(rng), "JONES", 1)
    elif choice < 0.35:
        name, text = "adjust", template(end, number, any_lines(rng))
    elif choice < 0.43:
        name, text = "accept", template(end, number, {})
    elif choice < 0.8 and sent["R" if end == "S" else "S"]:
        other = sent["R" if end == "S" else "S"]
        name, text = "take", other[-1] if rng.random() < 0.7 else rng.choice(other)
    elif choice < 0.9:
        name, text = rng.choice(["take", "signs", "took"] if admits else ["take"]), any_forgery(play, rng, end, number)
    else:
        texts = sent["S"] + sent["R"] + [base_text("D", number, any_lines(rng), "JONES", rng.randint(1, 3))]
        name, text = rng.choice(["signs", "took", "take"] if admits else ["take"]), rng.choice(texts)
    before = len(play.ends[end].entries)
    text = play.call(end, name, text)
    if len(play.ends[end].entries) > before and play.ends[end].entries[-1].kind == "SIGNED":
        sent[end].append(text)


def random_play(rng, admits=True):
    play = Play()
    sent = {"S": [], "R": []}
    for _ in range(CALLS):
        any_call(play, rng, sent, admits)
    play.show()
    return play


# ---- a book over a file

HEADS = {"S": b"DEXJ1HHH00000001RR00000001\n", "R": b"DEXJ1RRR00000001HH00000001\n"}
SET_A = "ST*894*0001~G82*D*100001*****20240229~LS*0100~G83*1*12*EA*012345678905****1.25~G83*2*3*EA*012345678912****.3333~" \
    "LE*0100~G84*15*1600~G86*JONES~G85*C60A~SE*10*0001~"


def image(end, entries):
    """The journal of these entries."""
    told = HEADS[end]
    for kind, text in entries:
        payload = text.replace("~", "\r\n").encode()
        told += b"\xa5" + kind[:1].encode() + len(payload).to_bytes(4, "big") + payload
    return told + b"\0"


def ran(program, words, calls):
    done = subprocess.run([program, *words], input="".join(call + "\n" for call in calls).encode(), capture_output=True, timeout=110)
    return done.stdout.decode().splitlines() + ([] if done.returncode == 0 else [f"status {done.returncode}"])


def over_a_file(program, end, before, calls):
    """What a book over a file answers to calls, and what the file then is."""
    with tempfile.TemporaryDirectory() as folder:
        journal = os.path.join(folder, "journal")
        with open(journal, "wb") as file:
            file.write(before)
        told = ran(program, [end, journal], calls)
        with open(journal, "rb") as file:
            return told + [file.read()]


def booked(program, play, end, rng):
    """A play at the book of an end, flushed at random places and at last, and what is wanted of it; then the book is opened again."""
    calls, wanted, staged, count = [], [], 0, 0
    for at, name, text, said in play.made:
        if at != end:
            continue
        calls.append(f"{name} {text}")
        added = said.startswith(("SIGNED", "TOOK"))
        staged += added
        wanted.append(f"STAGED {staged}" if added else said)
        if rng.random() < 0.3:
            count, staged = count + staged, 0
            calls.append("flush")
            wanted.append(f"ENTRIES {count}")
    entries = [(entry.kind, entry.text) for entry in play.ends[end].entries]
    bytes_wanted = image(end, entries)
    told = over_a_file(program, end, image(end, []), calls + ["flush"])
    again = over_a_file(program, end, told[-1], ["flush"])
    return told + again, wanted + [f"ENTRIES {len(entries)}", bytes_wanted, f"ENTRIES {len(entries)}", bytes_wanted]


def openings(program):
    """A journal of one delivery, one of the other end, and those whose second entry is not allowed."""
    text = SET_A.replace("~", "\r\n")
    told = over_a_file(program, "S", image("S", []), [f"propose {SET_A}", "flush"])
    wanted = ["STAGED 1", "ENTRIES 1", image("S", [("SIGNED", SET_A)])]
    told.append(len(told[-1]))
    wanted.append(28 + 6 + len(text))
    assert wanted[-1] == 206
    for end, entries, place in (("R", [("SIGNED", SET_A)], 5), ("S", [("SIGNED", SET_A)] * 2, 206), ("S", [("TOOK", SET_A)], 28)):
        before = image("S", entries)
        told += over_a_file(program, end, before, ["flush"])
        wanted += [f"NO no journal goes on at {place}", before]
    return told, wanted


def main():
    program = os.path.abspath(sys.argv[1] if len(sys.argv) > 1 else "crates/book_trace/out/book_trace")
    rng = random.Random(1)
    table = [take_refusals(), too_many_lines(), sign_refusals(), long_segments(), last_level()]
    plays = table + [random_play(rng) for _ in range(PLAYS)]
    told = ran(program, [], [call for play in plays for call in play.calls])
    pairs = [(told, [line for play in plays for line in play.wanted]), openings(program)]
    for play in table + [random_play(rng, False) for _ in range(BOOKS)]:
        pairs += [booked(program, play, end, rng) for end in "SR"]
    passed = failed = 0
    for told, wanted in pairs:
        same = sum(a == b for a, b in zip(told, wanted))
        wrong = max(len(told), len(wanted)) - same
        if wrong:
            print(next((f"{a!r}, wanted {b!r}" for a, b in zip(told, wanted) if a != b), "lines too few or too many"))
        passed, failed = passed + same, failed + wrong
    print(f"{passed} passed, {failed} failed")
    sys.exit(1 if failed else 0)


if __name__ == "__main__":
    main()
