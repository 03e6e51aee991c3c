"""Random texts of drafts and of counts, most of whose words and lines are right ones, and random deliveries as the sets that make them."""
import random
from dataclasses import replace

from line_states import check_of
from plain_texts import Allowance, Counted, Line, Note, Version

# ---- texts

RIGHT = {
    "number": [b"1", b"01", b"2", b"3", b"100001", b"100002", b"A-7", b"a/b", b"NODRAFT", b"1234567890123456789012"],
    "flag": [b"D", b"C"],
    "day": [b"20240229", b"20241231", b"00000101", b"20000229", b"99991231"],
    "word": [b"-", b"-", b"12345", b"0042", b"W" * 35],
    "filled": [b"EA", b"CA", b"90", b"W" * 35],
    "method": [b"02", b"06", b"01", b"06"],
    "mark": [b"J", b"JONES", b"TWELVECHARS1"],
    "cents": [b"0", b"5", b"1600", b"010", b"99999999999"],
    "dsd": [b"%d" % n for n in range(1, 20)] + [b"9999", b"007"],
    "quantity": [b"0", b"1", b"12", b"99999", b"007"],
    "cost": [b"1.25", b".3333", b"0", b"1.", b"7", b".005", b"99999.9999"],
    "percent": [b"2.5", b"100", b".01", b"999.99"],
    "form": [b"T", b"P", b"R"],
    "answer": [b"YES", b"NO"],
}
WRONG = {
    "number": [b"-", b"12345678901234567890123", b"1*2", b"\xe4"],
    "flag": [b"X", b"-", b"DC"],
    "day": [b"20230229", b"20241301", b"19000229", b"2024", b"202402290", b"2024x101", b"-"],
    "word": [b"W" * 36, b"A*", b"\x7f"],
    "filled": [b"-", b"W" * 36, b"*"],
    "method": [b"-", b"W" * 36, b"2*"],
    "mark": [b"-", b"ABCDEFGHIJKLM", b"J*"],
    "cents": [b"100000000000", b"1.5", b"-", b"0" * 16],
    "dsd": [b"0", b"10000", b"-", b"1.", b"0" * 16],
    "quantity": [b"100000", b"1x", b"-", b"0" * 16],
    "cost": [b"100000", b"1.23456", b".", b"1..", b"1.2.3", b"-", b"0" * 16],
    "percent": [b"1000", b"1.234", b"-", b"..3", b"x"],
    "form": [b"-", b"X", b"TT", b"R"],
    "answer": [b"yes", b"-", b"MAYBE"],
}
LINES = {
    "DRAFT": "number flag day word word word word", "SIGN": "mark", "TOLERANCE": "cents", "ITEM": "dsd quantity filled word cost",
    "COUNTER": "dsd quantity cost", "END": "", "COUNT": "number", "ANSWER": "answer", "COUNTED": "dsd quantity cost",
}
LEADS = {"ANSWER": b"COUNTER", "COUNTED": b"ITEM"}
BYTES = [b"", b" ", b"\t", b"\r", b"\n", b"-", b"*", b".", b"0", b"9", b"A", b"\x00", b"\x1a", b"\x7f", b"\xef\xbb\xbf", b"END\n", b"\r\n"]


class Texts:
    def __init__(self, seed):
        self.choice = random.Random(seed)
        self.care = 1

    def word(self, kind):
        return self.choice.choice((RIGHT if self.choice.random() < self.care else WRONG)[kind])

    def line(self, name):
        return b" ".join([LEADS.get(name, name.encode()), *(self.word(kind) for kind in LINES[name].split())])

    def allowance(self, in_line):
        form = self.word("form")
        if form == b"R" and not in_line and self.choice.random() < self.care:
            form = b"T"
        value = self.word({b"R": "cost", b"P": "percent"}.get(form, "cents"))
        return b" ".join([b"ALLOW", self.word("filled"), self.word("method"), form, value])

    def some(self, most, line, *words):
        return [line(*words) for _ in range(self.choice.randrange(most + 1))]

    def draft(self):
        front = [self.line("DRAFT"), self.line("SIGN"), self.line("TOLERANCE"), *self.some(2, self.allowance, False)]
        items = [[self.line("ITEM"), *self.some(2, self.allowance, True)] for _ in range(self.choice.randrange(4))]
        return [*front, *sum(items, []), *self.some(3, self.line, "COUNTER"), b"END"]

    def count(self):
        return [self.line("COUNT"), self.line("SIGN"), self.line("ANSWER"), *self.some(5, self.line, "COUNTED"), b"END"]

    def changed(self, lines):
        """A line less, or one more, which stands at another place too, is of another kind or is empty."""
        at, kind = self.choice.randrange(len(lines)), self.choice.randrange(4)
        if kind == 0:
            return lines[:at] + lines[at + 1:]
        more = [b"", self.choice.choice(lines), self.line(self.choice.choice(list(LINES)))][kind - 1]
        return lines[:at] + [more] + lines[at:]

    def damaged(self, text):
        """Bytes more at a place, perhaps instead of one, or a byte less."""
        at = self.choice.randrange(len(text) + 1)
        return text[:at] + self.choice.choice(BYTES) + text[at + self.choice.randrange(2):]

    def text(self, kind):
        self.care = self.choice.choice((0.8, 0.95, 0.99, 1))
        part = self.draft if kind == "DRAFTS" else self.count
        lines = [line for _ in range(self.choice.randrange(4)) for line in part()]
        if lines and self.choice.random() < 0.2:
            lines = self.changed(lines)
        ends = self.choice.choice(((b"\n",), (b"\r\n",), (b"\n", b"\r\n")))
        text = b"".join(line + self.choice.choice(ends) for line in lines)
        return self.damaged(text) if self.choice.random() < 0.3 else text


# ---- sets


def sealed(text):
    """A set from its text up to the integrity value, and that."""
    check = f"{check_of(text):04X}"
    return text + f"G85*{check}\r\nSE*{text.count(chr(10)) + 2}*0001\r\n", check


def decimal(value, places):
    return None if value is None else f"{value // 10 ** places}.{value % 10 ** places:0{places}}"


def segment(*parts):
    """A segment, without empty elements at its end."""
    texts = ("" if part is None else part.decode() if isinstance(part, bytes) else str(part) for part in parts)
    return "*".join(texts).rstrip("*") + "\r\n"


def extra_segment(extra):
    if isinstance(extra, Note):
        return segment(extra.text)
    return segment("G72", extra.code, extra.method, extra.number, extra.exception, decimal(extra.rate, 4), extra.quantity, extra.unit,
                   extra.total, decimal(extra.percent, 2), extra.tail)


def line_segments(name, line):
    yield segment(name, line.dsd, line.quantity, line.unit, line.upc, line.qualifier, line.id, line.case_code, decimal(line.cost, 4),
                  line.pack, line.label, line.tail)
    yield from map(extra_segment, line.extras)


def set_with(version, head, name, lines, extras=()):
    """The set with a head, lines and extras of its own that makes a version, and its integrity value."""
    inside = [text for line in lines for text in line_segments(name, line)]
    loop = [segment("LS", "0100"), *inside, segment("LE", "0100")] if lines else []
    quantity = sum(line.quantity for line in version.lines)
    behind = [*map(extra_segment, extras), segment("G84", quantity, version.amount()), segment("G86", "JONES")]
    return sealed("".join([*(segment(*row) for row in head), *loop, *behind]))


# ---- deliveries


class Deliveries:
    def __init__(self, seed):
        self.choice = random.Random(seed)

    def extra(self, in_line):
        pick = self.choice.choice
        if pick((True, False, False)):
            return Note(pick((b"G23*2 CASES DENTED", b"G23", b"G22*1*KEEP COOL" if in_line else b"G23*1")))
        sizes = [{"total": 7}, {"percent": 250}, {"rate": 1000, "quantity": 3}, {"rate": 500, "percent": 1, "quantity": 2}]
        size = pick(sizes + ([{"rate": 125}, {"rate": 3, "total": 1}] if in_line else []))
        words = {name: pick((b"", b"X")) for name in ("number", "exception", "unit", "tail")}
        return Allowance(pick((b"90", b"91")), pick((b"06", b"01")), **words, **size)

    def line(self, dsd):
        pick = self.choice.choice
        words = {name: pick((b"", b"", b"Q")) for name in ("upc", "qualifier", "id", "case_code", "pack", "label", "tail")}
        extras = tuple(self.extra(True) for _ in range(pick((0, 0, 1, 2))))
        return Line(dsd, pick((0, 0, 1, 12)), pick((b"EA", b"CA")), cost=pick((0, 3333, 12500)), extras=extras, **words)

    def lines(self, most):
        return [self.line(dsd) for dsd in self.choice.sample(range(1, 8), self.choice.randrange(most + 1))]

    def versions(self):
        """The versions of a delivery in turn, each with the set that makes it."""
        seen = Version(b"100001", self.lines(5), [self.extra(False) for _ in range(self.choice.randrange(3))])
        head = [("ST", "894", "0001"), ("G82", "D", seen.number, None, None, None, None, "20240229")]
        text, check = set_with(seen, head, "G83", seen.lines, seen.extras)
        yield seen, text
        for level in range(1, self.choice.choice((1, 2, 2, 3, 4, 10))):
            changes = self.lines(3) or [self.line(7)]
            kept = [next((change for change in changes if change.dsd == line.dsd), line) for line in seen.lines]
            seen = replace(seen, lines=kept + [change for change in changes if seen.line(change.dsd) is None], level=level)
            head = [("ST", "895", "0001"), ("G87", "SR"[level % 2], "D", seen.number, check, level)]
            text, check = set_with(seen, head, "G89", changes)
            yield seen, text

    def counted(self, seen):
        """Lines much as they stand in a version, in any order."""
        near = [Counted(line.dsd, line.quantity, line.cost) for line in seen.lines]
        if self.choice.random() < 0.6:
            near = [line for line in near if self.choice.random() < 0.9]
            near = [replace(line, **{self.choice.choice(("quantity", "cost")): 1}) if self.choice.random() < 0.3 else line for line in near]
            near += [Counted(dsd, 2, 9) for dsd in self.choice.sample(range(8, 12), self.choice.randrange(3))]
        self.choice.shuffle(near)
        return near

    def own_amount(self, seen):
        return self.choice.choice((None, seen.amount(), seen.amount() + 100, max(0, seen.amount() - 40)))

    def drafts(self, seen, own):
        """Drafts whose tolerance is the difference of the amounts, or one beside it."""
        tolerance = max(0, abs(seen.amount() - (own or 0)) + self.choice.choice((-1, 0, 1)))
        counters = self.counted(seen) if self.choice.random() < 0.8 else []
        number = self.choice.choice(("100001", "100001", "100001", "100002"))
        text = f"DRAFT {number} D 20240229 - - - -\nSIGN JONES\nTOLERANCE {tolerance}\n"
        return text + "".join(f"COUNTER {line.dsd} {line.quantity} {decimal(line.cost, 4)}\n" for line in counters) + "END\n"

    def counts(self, seen):
        number, answer = self.choice.choice(("100001", "100001", "100001", "100002")), self.choice.choice(("YES", "NO"))
        text = f"COUNT {number}\nSIGN SMITH\nCOUNTER {answer}\n"
        return text + "".join(f"ITEM {line.dsd} {line.quantity} {decimal(line.cost, 4)}\n" for line in self.counted(seen)) + "END\n"
