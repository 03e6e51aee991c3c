"""The signing rules of two ends of a delivery, written from their words: who may sign what, and what is taken.

A set is a text whose segments each end in `~`, of one signature, lines of one form and no allowances.
"""
from dataclasses import dataclass

HIGHEST_LEVEL, MOST_LINES, MOST_SEGMENT = 9, 999, 245
WRONG_END = "NO the set is one of the wrong end"


# ---- sets as texts

def check_of(text):
    """The remainder of a text: polynomial x^16 + x^15 + x^2 + 1, the lowest bit first."""
    check = 0
    for byte in text.replace("~", "\r\n").encode():
        check ^= byte
        for _ in range(8):
            check = check >> 1 ^ (0xA001 if check & 1 else 0)
    return check


def sealed(form, control, segments):
    text = f"ST*{form}*{control:04}~" + "".join(segment + "~" for segment in segments)
    return text + f"G85*{check_of(text):04X}~SE*{len(segments) + 3}*{control:04}~"


def rows_of(name, rows):
    if not rows:
        return []
    items = [f"{name}*{dsd}*{quantity}*EA*012345678905****{price}" for dsd, (quantity, price) in rows.items()]
    return ["LS*0100", *items, "LE*0100"]


def cents_of(price):
    whole, _, part = price.partition(".")
    return int(whole) * 100 + int((part + "00")[:2])


def totals_of(rows):
    return sum(quantity for quantity, _ in rows.values()), sum(quantity * cents_of(price) for quantity, price in rows.values())


def base_text(flag, number, rows, mark, control):
    quantity, amount = totals_of(rows)
    head = f"G82*{flag}*{number}*****20240229"
    return sealed(894, control, [head, *rows_of("G83", rows), f"G84*{quantity}*{amount}", f"G86*{mark}"])


def answer_text(letter, flag, number, check, level, rows, totals, mark, control):
    head = f"G87*{letter}*{flag}*{number}*{check:04X}*{level}"
    return sealed(895, control, [head, *rows_of("G89", rows), f"G84*{totals[0]}*{totals[1]}", f"G86*{mark}"])


@dataclass
class Set:
    """What a set says."""
    base: bool
    letter: str
    flag: str
    number: str
    named: int
    level: int
    rows: dict
    totals: tuple
    mark: str
    check: int

    @property
    def proposes(self):
        return self.base or bool(self.rows)

    @property
    def named_level(self):
        """The level of the proposal that an answer answers."""
        return self.level - 1 if self.rows else self.level

    def written(self, control):
        if self.base:
            return base_text(self.flag, self.number, self.rows, self.mark, control)
        return answer_text(self.letter, self.flag, self.number, self.named, self.level, self.rows, self.totals, self.mark, control)


def read(text):
    """What a text says, or nothing where it is not whole."""
    segments = [segment.split("*") for segment in text.split("~")]
    if len(segments) < 6:
        return None
    rows = {int(s[1]): (int(s[2]), s[8]) for s in segments if s[0] in ("G83", "G89")}
    last = {s[0]: s for s in segments}
    totals, mark, check = (int(last["G84"][1]), int(last["G84"][2])), last["G86"][1], int(last["G85"][1], 16)
    if segments[0][1] == "894":
        head = last["G82"]
        return Set(True, "S", head[1], head[2], 0, 0, rows, totals, mark, check)
    head = last["G87"]
    return Set(False, head[1], head[2], head[3], int(head[4], 16), int(head[5]), rows, totals, mark, check)


# ---- an end

@dataclass
class Entry:
    kind: str
    text: str
    set: Set


@dataclass
class Version:
    """How a delivery is after one of its proposals."""
    flag: str
    rows: dict
    level: int
    check: int


class End:
    def __init__(self, role):
        self.role, self.entries = role, []

    # -- what stands

    def of(self, number):
        return [entry for entry in self.entries if entry.set.number == number]

    def highest(self, number):
        """The last proposal of the greatest level."""
        found = None
        for entry in self.of(number):
            if entry.set.proposes and (found is None or entry.set.level >= found.set.level):
                found = entry
        return found

    def acceptance(self, number):
        return next((entry for entry in self.of(number) if not entry.set.proposes), None)

    def version(self, entry):
        """What a proposal makes: its base record, or the version of the proposal that it names with its lines put in."""
        said = entry.set
        if said.base:
            return Version(said.flag, said.rows, 0, said.check)
        before = next(e for e in self.of(said.number) if e.set.proposes and (e.set.level, e.set.check) == (said.level - 1, said.named))
        return Version(said.flag, self.version(before).rows | said.rows, said.level, said.check)

    def seen(self, number):
        top = self.highest(number)
        return self.version(top) if top else None

    def check_at(self, number, level):
        return next(entry.set.check for entry in self.of(number) if entry.set.proposes and entry.set.level == level)

    def next_control(self):
        return sum(entry.kind == "SIGNED" for entry in self.entries) + 1

    def last(self):
        return self.entries[-1].text if self.entries else ""

    # -- what an answer does to a version

    def misapplies(self, version, said):
        if said.flag != version.flag:
            return "NO another delivery"
        rows = version.rows | said.rows
        if len(rows) > MOST_LINES:
            return f"NO {len(rows)} lines are too many"
        for stated, computed in zip(said.totals, totals_of(rows)):
            if stated != computed:
                return f"NO totals of {stated} are stated, and the rows come to {computed}"
        return None

    # -- calls

    def add(self, kind, text):
        self.entries.append(Entry(kind, text, read(text)))
        return f'{kind} "{text}"'.replace("~", "\\r\\n")

    def take(self, text):
        said = read(text)
        if said is None:
            # it ends behind a whole segment
            return f"NO at {len(text) + text.count('~')}: a segment out of order"
        if any(entry.kind == "TOOK" and entry.text == text for entry in self.entries):
            return "NO the set was taken before"
        return self.refusal(said) or self.add("TOOK", text)

    def refusal(self, said):
        top = self.highest(said.number)
        if said.base:
            if self.role == "S":
                return WRONG_END
            return f"NO the highest level is {top.set.level}" if top else None
        # the supplier signs proposals of even levels, and answers those of odd ones
        signs = "SR"[said.level % 2] if said.rows else "RS"[said.level % 2]
        if said.letter == self.role or signs == self.role:
            return WRONG_END
        return self.answer_refusal(said, top)

    def answer_refusal(self, said, top):
        own = [e for e in self.of(said.number) if e.kind == "SIGNED" and e.set.proposes]
        named = next((e for e in own if (e.set.level, e.set.check) == (said.named_level, said.named)), None)
        if named is None:
            return f"NO no set of this end has check {said.named:04X}"
        accepted = self.acceptance(said.number)
        if accepted:
            return f"NO the set with check {accepted.set.named:04X} is accepted"
        if named.set.level < top.set.level:
            return f"NO the highest level is {top.set.level}"
        return self.misapplies(self.version(named), said)

    def propose(self, text):
        said = read(text)
        if self.role == "R":
            return "NO it is not this end's turn at level 0"
        top = self.highest(said.number)
        if top:
            return f"NO the delivery is known, up to level {top.set.level}"
        return self.add("SIGNED", said.written(self.next_control()))

    def no_answer(self, number):
        top = self.highest(number)
        if top is None:
            return "NO the delivery is not known"
        accepted = self.acceptance(number)
        if accepted:
            return f"NO the set with check {accepted.set.named:04X} is accepted"
        if top.kind == "SIGNED":
            return f"NO it is not this end's turn at level {top.set.level}"
        return None

    def accept(self, text):
        said = read(text)
        return self.no_answer(said.number) or self.sign(said, {})

    def adjust(self, text):
        said = read(text)
        refusal = self.no_answer(said.number)
        if refusal:
            return refusal
        version = self.seen(said.number)
        if version.level == HIGHEST_LEVEL:
            return "NO no level is left"
        rows = version.rows | said.rows
        if len(rows) > MOST_LINES:
            return f"NO {len(rows)} lines are too many"
        return self.sign(said, said.rows)

    def sign(self, said, changes):
        version = self.seen(said.number)
        level = version.level + bool(changes)
        totals = totals_of(version.rows | changes)
        text = answer_text(self.role, version.flag, said.number, version.check, level, changes, totals, said.mark, self.next_control())
        return self.add("SIGNED", text)

    # -- entries as they stand in a journal

    def signs(self, text):
        return self.admit("SIGNED", text)

    def took(self, text):
        return self.admit("TOOK", text)

    def admit(self, kind, text):
        said = read(text)
        if said is None or not self.may_stand(kind, said):
            return "ILLEGAL"
        if kind == "SIGNED" and text != said.written(self.next_control()):
            return "ILLEGAL"
        self.add(kind, text)
        return "ADMITTED"

    def may_stand(self, kind, said):
        signer = self.role if kind == "SIGNED" else "SR".replace(self.role, "")
        top = self.highest(said.number)
        if said.base:
            return signer == "S" and top is None
        if said.letter != signer or top is None or top.kind == kind or self.acceptance(said.number):
            return False
        if (top.set.level, top.set.check) != (said.named_level, said.named):
            return False
        return self.misapplies(self.version(top), said) is None

    # -- for tests

    def answer_of_other(self, number, changes, letter=None, flag=None, level=None, check=None, totals=None):
        """The answer that the other end would sign to what stands here, with some things changed."""
        version = self.seen(number) or Version("D", {}, 0, 0)
        own = "SR".replace(self.role, "")
        rows = version.rows | changes
        stated = totals_of(rows) if totals is None else totals
        at = min(version.level + bool(changes), HIGHEST_LEVEL) if level is None else level
        return answer_text(letter or own, flag or version.flag, number, version.check if check is None else check, at, changes, stated, "X", 1)

    def shown(self):
        told = []
        for number in dict.fromkeys(entry.set.number for entry in self.entries):
            told.append(self.shown_delivery(number))
        return told + [f"ENTRIES {len(self.entries)}"]

    def shown_delivery(self, number):
        version, top, accepted = self.seen(number), self.highest(number), self.acceptance(number)
        quantity, amount = totals_of(version.rows)
        line = f"{number} {version.level} {version.check:04X} {quantity} {amount}"
        if top.kind == "TOOK" and not accepted:
            line += " OURS"
        signed = [entry for entry in self.of(number) if entry.kind == "SIGNED"]
        proposals = [entry for entry in signed if entry.set.proposes]
        if proposals:
            line += f" OWN {proposals[-1].set.totals[1]}"
        if accepted:
            line += f" FINAL {version.check:04X}"
        if signed:
            line += f' LAST "{signed[-1].text}"'.replace("~", "\\r\\n")
        return line
