"""Which texts are which values, and why a text is none: a model of what docs/FORMATS.md says, written apart from the code."""

MOST_CENTS, MOST_QUANTITY, MOST_COST, MOST_PERCENT, MOST_DSD = 99_999_999_999, 99_999, 999_999_999, 99_999, 9_999
DIGITS = b"0123456789"
ELEMENT = bytes(byte for byte in range(0x20, 0x7F) if byte != ord("*"))


class Fault(Exception):
    """Why a text is no value."""


def judged(text, most, allowed):
    """The faults that every kind has, in their order: no byte, too many, one that may not stand there."""
    if not text:
        raise Fault("EMPTY")
    if len(text) > most:
        raise Fault(f"TOOLONG {len(text)}")
    for place, byte in enumerate(text):
        if byte not in allowed:
            raise Fault(f"NOTDIGIT {place}")
    return text


def number(least, most):
    def read(text):
        value = int(judged(text, 15, DIGITS))
        if not least <= value <= most:
            raise Fault("RANGE")
        return value
    return read


def decimal(places, most):
    def read(text):
        judged(text, 15, range(256))
        if not any(byte in DIGITS for byte in text):
            raise Fault("NOTDIGIT 0")
        point = text.find(b".")
        for place, byte in enumerate(text):
            if byte not in DIGITS and place != point:
                raise Fault(f"NOTDIGIT {place}")
        whole, _, decimals = text.partition(b".")
        if len(decimals) > places:
            raise Fault(f"DECIMALS {len(decimals)}")
        value = int(whole or b"0") * 10 ** places + int(decimals.ljust(places, b"0") or b"0")
        if value > most:
            raise Fault("RANGE")
        return value
    return read


def word(least=0, most=35, allowed=ELEMENT):
    def read(text):
        return b"" if least == 0 and not text else judged(text, most, allowed)
    return read


def choice(*texts):
    def read(text):
        if not text:
            raise Fault("EMPTY")
        if text not in texts:
            raise Fault("RANGE")
        return text
    return read


def day(text):
    judged(text, 8, DIGITS)
    if len(text) < 8:
        raise Fault("RANGE")
    year, month, of_month = int(text[:4]), int(text[4:6]), int(text[6:])
    leap = year % 4 == 0 and (year % 100 != 0 or year % 400 == 0)
    lengths = [31, 29 if leap else 28, 31, 30, 31, 30, 31, 31, 30, 31, 30, 31]
    if not 1 <= month <= 12 or not 1 <= of_month <= lengths[month - 1]:
        raise Fault("NOSUCHDAY")
    return text


cents, quantity, dsd = number(0, MOST_CENTS), number(0, MOST_QUANTITY), number(1, MOST_DSD)
cost, percent = decimal(4, MOST_COST), decimal(2, MOST_PERCENT)
delivery_number = word(1, 22, ELEMENT.replace(b" ", b""))
filled, mark = word(1), word(1, 12)
FORMS = {b"T": cents, b"R": cost, b"P": percent}
