"""What texts of drafts and of counts say, where they are refused, and what both ends choose by them: a model of what docs/FORMATS.md says,
written apart from the code. What is `shown` of a value is what the program `lines_trace` is to print of it."""
from dataclasses import dataclass, field, replace

from value_texts import FORMS, MOST_CENTS, Fault, cents, choice, cost, day, delivery_number, dsd, filled, mark, quantity, word

MOST_PARTS, MOST_LINES, MOST_ALLOWANCES = 200, 999, 20


class Refused(Exception):
    """Where and why a text is refused."""


# ---- lines of a delivery, and what they come to


@dataclass(frozen=True)
class Allowance:
    code: bytes
    method: bytes
    number: bytes = b""
    exception: bytes = b""
    rate: int = None
    quantity: int = None
    unit: bytes = b""
    total: int = None
    percent: int = None
    tail: bytes = b""

    def shown(self):
        return starred("ALLOW", self.code, self.method, self.number, self.exception, self.rate, self.quantity, self.unit,
                       self.total, self.percent, self.tail)

    def effect(self, basis, of_line):
        if self.total is not None:
            size = self.total
        elif self.rate is not None:
            size = extension(of_line if self.quantity is None else self.quantity, self.rate)
        else:
            size = (basis * self.percent + 5_000) // 10_000
        return {b"02": -size, b"06": size}.get(self.method, 0)


@dataclass(frozen=True)
class Note:
    text: bytes

    def shown(self):
        return starred("NOTE", self.text)

    def effect(self, basis, of_line):
        return 0


@dataclass(frozen=True)
class Line:
    dsd: int
    quantity: int
    unit: bytes = b"EA"
    upc: bytes = b""
    qualifier: bytes = b""
    id: bytes = b""
    case_code: bytes = b""
    cost: int = 0
    pack: bytes = b""
    label: bytes = b""
    tail: bytes = b""
    extras: tuple = ()

    def shown(self):
        head = starred("ITEM", self.dsd, self.quantity, self.unit, self.upc, self.qualifier, self.id, self.case_code, self.cost,
                       self.pack, self.label, self.tail)
        return [head, *(extra.shown() for extra in self.extras)]


@dataclass(frozen=True)
class Counted:
    dsd: int
    quantity: int
    cost: int

    def shown(self):
        return starred("COUNTED", self.dsd, self.quantity, self.cost)

    def of(self, line):
        """The line as it was counted, or a new one."""
        return replace(line or Line(self.dsd, 0), quantity=self.quantity, cost=self.cost)


def starred(*parts):
    texts = ("" if part is None else part.decode("latin-1") if isinstance(part, bytes) else str(part) for part in parts)
    return "*".join(texts)


def extension(units, unit_cost):
    return (units * unit_cost + 50) // 100


def price(lines, extras):
    """What the rows come to, in cents: below 0 or above the greatest amount too."""
    extensions = [extension(line.quantity, line.cost) for line in lines]
    inside = sum(extra.effect(basis, line.quantity) for line, basis in zip(lines, extensions) for extra in line.extras)
    return sum(extensions) + inside + sum(extra.effect(sum(extensions), 0) for extra in extras)


# ---- texts


def lines_in(text):
    """Each line with its place and whether it ends. A CR in front of its LF is no part of it."""
    place = 0
    *ended, last = text.split(b"\n")
    for piece in ended:
        yield place, piece[:-1] if piece.endswith(b"\r") else piece, True
        place += len(piece) + 1
    if last:
        yield place, last, False


@dataclass
class Draft:
    number: bytes
    head: list
    mark: bytes = b""
    tolerance: int = 0
    extras: list = field(default_factory=list)
    lines: list = field(default_factory=list)
    counters: list = field(default_factory=list)

    def shown(self):
        yield starred("DRAFT", self.number, *self.head)
        yield starred("REST", 0, None, b"")
        yield starred("SIGN", self.mark, b"")
        yield starred("TOLERANCE", self.tolerance)
        yield starred("TOTALS", sum(line.quantity for line in self.lines), price(self.lines, self.extras))
        yield from (extra.shown() for extra in self.extras)
        for line in self.lines:
            yield from line.shown()
        yield from (counter.shown() for counter in self.counters)
        yield "END"


@dataclass
class Count:
    number: bytes
    mark: bytes = b""
    counters: bytes = b""
    lines: list = field(default_factory=list)

    def shown(self):
        yield starred("COUNT", self.number)
        yield starred("SIGN", self.mark, b"")
        yield starred("COUNTER", self.counters)
        yield from (line.shown() for line in self.lines)
        yield "END"


class Reader:
    """Reads a text line by line. `follows` has the words that may lead a line behind one that another word led, `kinds` those of the words
    behind it."""

    def __init__(self):
        self.parts = []

    def refuse(self, reason):
        raise Refused(f"REFUSED {self.place} {reason}")

    def values(self, lead, words):
        values = []
        for at, text in enumerate(words, 1):
            kind = self.kinds[lead][at - 1]
            try:
                values.append((kind or FORMS[values[2]])(b"" if text == b"-" else text))
            except Fault as fault:
                self.refuse(f"VALUE {at} {fault}")
            if lead == "ALLOW" and at == 3 and values[2] == b"R" and not self.parts[-1].lines:
                self.refuse("VALUE 3 RANGE")
        return values

    def read(self, text):
        last, self.place = "END", 0
        for self.place, line, ended in lines_in(text):
            words = line.split(b" ")
            lead = words[0].decode("latin-1")
            if lead not in self.follows[last].split():
                self.refuse("LINE")
            if not ended or b"" in words or len(words) != 1 + len(self.kinds[lead]):
                self.refuse("WORDS")
            if self.is_full(lead):
                self.refuse("LIMIT")
            values = self.values(lead, words[1:])
            if self.is_twice(lead, values):
                self.refuse("TWICE")
            self.take(lead, values)
            last = lead
        if last != "END":
            self.place = len(text)
            self.refuse("LINE")
        return self.parts


class DraftReader(Reader):
    follows = {
        "END": "DRAFT", "DRAFT": "SIGN", "SIGN": "TOLERANCE", "TOLERANCE": "ALLOW ITEM COUNTER END", "ALLOW": "ALLOW ITEM COUNTER END",
        "ITEM": "ALLOW ITEM COUNTER END", "COUNTER": "COUNTER END",
    }
    kinds = {
        "DRAFT": (delivery_number, choice(b"D", b"C"), day, word(), word(), word(), word()),
        "SIGN": (mark,), "TOLERANCE": (cents,), "ALLOW": (filled, filled, choice(*FORMS), None),
        "ITEM": (dsd, quantity, filled, word(), cost), "COUNTER": (dsd, quantity, cost), "END": (),
    }

    def allowances(self):
        draft = self.parts[-1]
        return draft.lines[-1].extras if draft.lines else draft.extras

    def is_full(self, lead):
        if lead == "DRAFT":
            return len(self.parts) == MOST_PARTS
        if lead == "ALLOW":
            return len(self.allowances()) == MOST_ALLOWANCES
        return (lead == "ITEM" and len(self.parts[-1].lines) == MOST_LINES) or (
            lead == "COUNTER" and len(self.parts[-1].counters) == MOST_LINES)

    def is_twice(self, lead, values):
        if lead == "DRAFT":
            return any(draft.number == values[0] for draft in self.parts)
        among = {"ITEM": "lines", "COUNTER": "counters"}.get(lead)
        return among is not None and any(line.dsd == values[0] for line in getattr(self.parts[-1], among))

    def take(self, lead, values):
        draft = self.parts[-1] if self.parts else None
        if lead == "DRAFT":
            self.parts.append(Draft(values[0], values[1:]))
        elif lead == "SIGN":
            draft.mark = values[0]
        elif lead == "TOLERANCE":
            draft.tolerance = values[0]
        elif lead == "ALLOW":
            allowance = Allowance(values[0], values[1], **{{b"T": "total", b"R": "rate", b"P": "percent"}[values[2]]: values[3]})
            if draft.lines:
                draft.lines[-1] = replace(draft.lines[-1], extras=(*draft.lines[-1].extras, allowance))
            else:
                draft.extras.append(allowance)
        elif lead == "ITEM":
            draft.lines.append(Line(values[0], values[1], values[2], values[3], cost=values[4]))
        elif lead == "COUNTER":
            draft.counters.append(Counted(*values))
        elif not 0 <= price(draft.lines, draft.extras) <= MOST_CENTS:
            self.refuse("PRICE")


class CountReader(Reader):
    follows = {"END": "COUNT", "COUNT": "SIGN", "SIGN": "COUNTER", "COUNTER": "ITEM END", "ITEM": "ITEM END"}
    kinds = {"COUNT": (delivery_number,), "SIGN": (mark,), "COUNTER": (choice(b"YES", b"NO"),), "ITEM": (dsd, quantity, cost), "END": ()}

    def is_full(self, lead):
        return (lead == "COUNT" and len(self.parts) == MOST_PARTS) or (lead == "ITEM" and len(self.parts[-1].lines) == MOST_LINES)

    def is_twice(self, lead, values):
        if lead == "COUNT":
            return any(count.number == values[0] for count in self.parts)
        return lead == "ITEM" and any(line.dsd == values[0] for line in self.parts[-1].lines)

    def take(self, lead, values):
        if lead == "COUNT":
            self.parts.append(Count(values[0]))
        elif lead == "SIGN":
            self.parts[-1].mark = values[0]
        elif lead == "COUNTER":
            self.parts[-1].counters = values[0]
        elif lead == "ITEM":
            self.parts[-1].lines.append(Counted(*values))


def read(kind, text):
    """The parts that a text says, and the line that says why it is refused where it is."""
    try:
        return {"DRAFTS": DraftReader, "COUNTS": CountReader}[kind]().read(text), None
    except Refused as refused:
        return None, str(refused)


# ---- choices


@dataclass
class Version:
    """A delivery as it stands behind so many adjustments."""
    number: bytes
    lines: list
    extras: list
    level: int = 0

    def amount(self):
        return price(self.lines, self.extras)

    def shown(self):
        yield starred("LEVEL", self.level)
        yield starred("TOTALS", sum(line.quantity for line in self.lines), self.amount())

    def line(self, number):
        return next((line for line in self.lines if line.dsd == number), None)


def adjusted(who, lines):
    return [f"{who} ADJUST", *(text for line in lines for text in line.shown())]


def of_number(parts, number):
    return next((part for part in parts if part.number == number), None)


def supplier(drafts, seen, own):
    """What a supplier does on a version, where its last own proposal came to so much."""
    draft = of_number(drafts, seen.number)
    if draft is None or own is None:
        return ["SUPPLIER WAIT"]
    if abs(own - seen.amount()) <= draft.tolerance:
        return ["SUPPLIER ACCEPT"]
    if draft.counters and seen.level == 1:
        return adjusted("SUPPLIER", [counter.of(seen.line(counter.dsd)) for counter in draft.counters])
    return ["SUPPLIER WAIT"]


def differing(count, seen):
    """The lines of a version as they were counted, where they differ, and then the new ones."""
    for line in seen.lines:
        counted = next((counted for counted in count.lines if counted.dsd == line.dsd), None)
        if counted is None and line.quantity != 0:
            yield replace(line, quantity=0)
        elif counted is not None and (counted.quantity, counted.cost) != (line.quantity, line.cost):
            yield counted.of(line)
    for counted in count.lines:
        if seen.line(counted.dsd) is None:
            yield counted.of(None)


def receiver(counts, seen):
    """What a receiver does on a version."""
    count = of_number(counts, seen.number)
    if count is None:
        return ["RECEIVER WAIT"]
    lines = list(differing(count, seen))
    if not lines or (seen.level >= 2 and count.counters == b"YES"):
        return ["RECEIVER ACCEPT"]
    return adjusted("RECEIVER", lines) if seen.level == 0 else ["RECEIVER WAIT"]
