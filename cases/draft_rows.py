"""Texts of drafts and of counts, what is told of each, and worked choices: rows written by hand, by docs/FORMATS.md and the sets in
examples/."""

LONG, DIGITS = "W" * 36, "0" * 16

# ---- every fault of every line kind: the text in front, the place behind it, and lines with their reasons

DRAFT = "DRAFT 1 D 20240229 - - - -\n"
SIGNED = DRAFT + "SIGN JONES\n"
FRONT = SIGNED + "TOLERANCE 5\n"
ITEM = FRONT + "ITEM 1 12 EA - 1.25\n"
COUNT = "COUNT 100001\n"
COUNT_SIGNED = COUNT + "SIGN SMITH\n"
COUNT_FRONT = COUNT_SIGNED + "COUNTER NO\n"

DRAFT_FAULTS = [
    ("", 0, [
        ("DRAF 1 D 20240229 - - - -", "LINE"), ("draft 1 D 20240229 - - - -", "LINE"), ("SIGN JONES", "LINE"), ("END", "LINE"), ("-", "LINE"),
        ("DRAFT", "WORDS"), ("DRAFT 1 D 20240229 - - -", "WORDS"), ("DRAFT 1 D 20240229 - - - - -", "WORDS"),
        ("DRAFT 1 X 20240229 - - - - -", "WORDS"),
        ("DRAFT - D 20240229 - - - -", "VALUE 1 EMPTY"), ("DRAFT 12345678901234567890123 D 20240229 - - - -", "VALUE 1 TOOLONG 23"),
        ("DRAFT 1*2 D 20240229 - - - -", "VALUE 1 NOTDIGIT 1"), ("DRAFT * X 20230229 - - - -", "VALUE 1 NOTDIGIT 0"),
        ("DRAFT 1 - 20240229 - - - -", "VALUE 2 EMPTY"), ("DRAFT 1 X 20240229 - - - -", "VALUE 2 RANGE"),
        ("DRAFT 1 DD 20240229 - - - -", "VALUE 2 RANGE"), ("DRAFT 1 d 20230229 - - - -", "VALUE 2 RANGE"),
        ("DRAFT 1 D - - - - -", "VALUE 3 EMPTY"), ("DRAFT 1 D 202402290 - - - -", "VALUE 3 TOOLONG 9"),
        ("DRAFT 1 D 2024022x - - - -", "VALUE 3 NOTDIGIT 7"), ("DRAFT 1 D 2024229 - - - -", "VALUE 3 RANGE"),
        ("DRAFT 1 D 20230229 - - - -", "VALUE 3 NOSUCHDAY"), ("DRAFT 1 D 19000229 - - - -", "VALUE 3 NOSUCHDAY"),
        ("DRAFT 1 C 20241301 - - - -", "VALUE 3 NOSUCHDAY"), ("DRAFT 1 C 20240400 * - - -", "VALUE 3 NOSUCHDAY"),
        (f"DRAFT 1 D 20240229 {LONG} - - -", "VALUE 4 TOOLONG 36"), ("DRAFT 1 D 20240229 A* - - -", "VALUE 4 NOTDIGIT 1"),
        (f"DRAFT 1 D 20240229 - {LONG} - -", "VALUE 5 TOOLONG 36"), ("DRAFT 1 D 20240229 - AB* * -", "VALUE 5 NOTDIGIT 2"),
        (f"DRAFT 1 D 20240229 - - {LONG} -", "VALUE 6 TOOLONG 36"), ("DRAFT 1 D 20240229 - - * -", "VALUE 6 NOTDIGIT 0"),
        (f"DRAFT 1 D 20240229 - - - {LONG}", "VALUE 7 TOOLONG 36"), ("DRAFT 1 D 20240229 - - - *", "VALUE 7 NOTDIGIT 0"),
    ]),
    (FRONT + "END\n", 54, [
        ("DRAFT 1 C 20240301 - - - -", "TWICE"), ("DRAFT 1 D 20230229 - - - -", "VALUE 3 NOSUCHDAY"), ("SIGN JONES", "LINE"), ("END", "LINE"),
        ("COUNT 2", "LINE"), ("DRAFT 2 D 20240229", "WORDS"),
    ]),
    (DRAFT, 27, [
        ("TOLERANCE 5", "LINE"), ("DRAFT 2 D 20240229 - - - -", "LINE"), ("END", "LINE"), ("SIGNED JONES", "LINE"),
        ("SIGN", "WORDS"), ("SIGN JANE JONES", "WORDS"),
        ("SIGN -", "VALUE 1 EMPTY"), ("SIGN TWELVECHARS12", "VALUE 1 TOOLONG 13"), ("SIGN J*", "VALUE 1 NOTDIGIT 1"),
        ("SIGN ABCDEFGHIJKL*", "VALUE 1 TOOLONG 13"),
    ]),
    (SIGNED, 38, [
        ("SIGN JONES", "LINE"), ("ITEM 1 12 EA - 1.25", "LINE"), ("ALLOW 90 02 T 1", "LINE"), ("END", "LINE"),
        ("TOLERANCE", "WORDS"), ("TOLERANCE 5 5", "WORDS"),
        ("TOLERANCE -", "VALUE 1 EMPTY"), (f"TOLERANCE {DIGITS}", "VALUE 1 TOOLONG 16"), ("TOLERANCE 5.0", "VALUE 1 NOTDIGIT 1"),
        ("TOLERANCE -5", "VALUE 1 NOTDIGIT 0"), ("TOLERANCE 100000000000", "VALUE 1 RANGE"),
    ]),
    (FRONT, 50, [
        ("TOLERANCE 5", "LINE"), ("DRAFT 2 D 20240229 - - - -", "LINE"), ("COUNTERS 1 2 3", "LINE"),
        ("ALLOW 90 02 T", "WORDS"), ("ALLOW 90 02 T 1 2", "WORDS"), ("ALLOW - 02 R x y", "WORDS"),
        ("ALLOW - - X -", "VALUE 1 EMPTY"), (f"ALLOW {LONG} 02 T 1", "VALUE 1 TOOLONG 36"), ("ALLOW 9* 02 T 1", "VALUE 1 NOTDIGIT 1"),
        ("ALLOW 90 - X -", "VALUE 2 EMPTY"), (f"ALLOW 90 {LONG} T 1", "VALUE 2 TOOLONG 36"), ("ALLOW 90 * T 1", "VALUE 2 NOTDIGIT 0"),
        ("ALLOW 90 02 - -", "VALUE 3 EMPTY"), ("ALLOW 90 02 X 1", "VALUE 3 RANGE"), ("ALLOW 90 02 TT 1", "VALUE 3 RANGE"),
        ("ALLOW 90 02 R 1", "VALUE 3 RANGE"), ("ALLOW 90 01 R x", "VALUE 3 RANGE"),
        ("ALLOW 90 02 T -", "VALUE 4 EMPTY"), (f"ALLOW 90 02 T {DIGITS}", "VALUE 4 TOOLONG 16"), ("ALLOW 90 02 T 1.5", "VALUE 4 NOTDIGIT 1"),
        ("ALLOW 90 02 T 100000000000", "VALUE 4 RANGE"),
        ("ALLOW 90 02 P -", "VALUE 4 EMPTY"), (f"ALLOW 90 02 P {DIGITS}", "VALUE 4 TOOLONG 16"), ("ALLOW 90 02 P .", "VALUE 4 NOTDIGIT 0"),
        ("ALLOW 90 02 P 1..", "VALUE 4 NOTDIGIT 2"), ("ALLOW 90 02 P 2.125", "VALUE 4 DECIMALS 3"), ("ALLOW 90 02 P 1000", "VALUE 4 RANGE"),
        ("ITEM 1 12 EA -", "WORDS"), ("ITEM 1 12 EA - 1.25 -", "WORDS"),
        ("ITEM - 12 EA - 1.25", "VALUE 1 EMPTY"), (f"ITEM {DIGITS} 12 EA - 1.25", "VALUE 1 TOOLONG 16"),
        ("ITEM 1.0 12 EA - 1.25", "VALUE 1 NOTDIGIT 1"), ("ITEM 0 12 EA - 1.25", "VALUE 1 RANGE"), ("ITEM 10000 x EA - 1.25", "VALUE 1 RANGE"),
        ("ITEM 1 - EA - 1.25", "VALUE 2 EMPTY"), (f"ITEM 1 {DIGITS} EA - 1.25", "VALUE 2 TOOLONG 16"),
        ("ITEM 1 12x EA - 1.25", "VALUE 2 NOTDIGIT 2"), ("ITEM 1 100000 - - 1.25", "VALUE 2 RANGE"),
        ("ITEM 1 12 - - 1.25", "VALUE 3 EMPTY"), (f"ITEM 1 12 {LONG} - 1.25", "VALUE 3 TOOLONG 36"),
        ("ITEM 1 12 E* * 1.25", "VALUE 3 NOTDIGIT 1"),
        (f"ITEM 1 12 EA {LONG} 1.25", "VALUE 4 TOOLONG 36"), ("ITEM 1 12 EA 012* x", "VALUE 4 NOTDIGIT 3"),
        ("ITEM 1 12 EA - -", "VALUE 5 EMPTY"), (f"ITEM 1 12 EA - {DIGITS}", "VALUE 5 TOOLONG 16"), ("ITEM 1 12 EA - 1.2.5", "VALUE 5 NOTDIGIT 3"),
        ("ITEM 1 12 EA - .x", "VALUE 5 NOTDIGIT 0"), ("ITEM 1 12 EA - 1.25000", "VALUE 5 DECIMALS 5"), ("ITEM 1 12 EA - 100000", "VALUE 5 RANGE"),
        ("COUNTER 1 12", "WORDS"), ("COUNTER 1 12 EA 1.25", "WORDS"), ("COUNTER YES", "WORDS"),
        ("COUNTER - 12 1.25", "VALUE 1 EMPTY"), (f"COUNTER {DIGITS} 12 1.25", "VALUE 1 TOOLONG 16"), ("COUNTER x 12 1.25", "VALUE 1 NOTDIGIT 0"),
        ("COUNTER 0 12 1.25", "VALUE 1 RANGE"), ("COUNTER 10000 - 1.25", "VALUE 1 RANGE"),
        ("COUNTER 1 - 1.25", "VALUE 2 EMPTY"), (f"COUNTER 1 {DIGITS} 1.25", "VALUE 2 TOOLONG 16"), ("COUNTER 1 1. x", "VALUE 2 NOTDIGIT 1"),
        ("COUNTER 1 100000 -", "VALUE 2 RANGE"),
        ("COUNTER 1 12 -", "VALUE 3 EMPTY"), (f"COUNTER 1 12 {DIGITS}", "VALUE 3 TOOLONG 16"), ("COUNTER 1 12 1,25", "VALUE 3 NOTDIGIT 1"),
        ("COUNTER 1 12 .00001", "VALUE 3 DECIMALS 5"), ("COUNTER 1 12 99999.99990", "VALUE 3 DECIMALS 5"), ("COUNTER 1 12 100000.", "VALUE 3 RANGE"),
        ("END 1", "WORDS"), ("END -", "WORDS"), ("ENDS", "LINE"),
    ]),
    (ITEM, 70, [
        ("ITEM 01 3 EA - .3333", "TWICE"), ("ITEM 1 3 EA - .33333", "VALUE 5 DECIMALS 5"), ("TOLERANCE 5", "LINE"),
        ("ALLOW 90 02 R -", "VALUE 4 EMPTY"), (f"ALLOW 90 02 R {DIGITS}", "VALUE 4 TOOLONG 16"), ("ALLOW 90 02 R ..", "VALUE 4 NOTDIGIT 0"),
        ("ALLOW 90 02 R .12345", "VALUE 4 DECIMALS 5"), ("ALLOW 90 02 R 100000", "VALUE 4 RANGE"), ("ALLOW 90 02 r 1", "VALUE 3 RANGE"),
    ]),
    (ITEM + "COUNTER 1 2 3\n", 84, [
        ("COUNTER 001 4 5", "TWICE"), ("COUNTER 1 4 x", "VALUE 3 NOTDIGIT 0"), ("ITEM 2 3 EA - .3333", "LINE"), ("ALLOW 90 02 T 1", "LINE"),
        ("DRAFT 2 D 20240229 - - - -", "LINE"),
    ]),
    (ITEM + "ALLOW 90 02 T 1501\n", 89, [("END", "PRICE"), ("END 1", "WORDS"), ("COUNTER 0 1 1", "VALUE 1 RANGE")]),
    (FRONT + "ALLOW 90 02 T 1501\n" + ITEM[50:], 89, [("END", "PRICE")]),
    (FRONT + "ITEM 1 99999 EA - 99999.9999\n", 79, [("END", "PRICE")]),
    (FRONT + "ALLOW 90 06 T 99999999999\nITEM 1 1 EA - .005\n", 95, [("END", "PRICE")]),
]

COUNT_FAULTS = [
    ("", 0, [
        ("COUNTS 100001", "LINE"), ("count 100001", "LINE"), ("COUNTER NO", "LINE"), ("SIGN SMITH", "LINE"), ("END", "LINE"),
        ("COUNT", "WORDS"), ("COUNT 1 2", "WORDS"),
        ("COUNT -", "VALUE 1 EMPTY"), ("COUNT 12345678901234567890123", "VALUE 1 TOOLONG 23"), ("COUNT 10*", "VALUE 1 NOTDIGIT 2"),
    ]),
    (COUNT_FRONT + "END\n", 39, [("COUNT 100001", "TWICE"), ("COUNT 0100001 1", "WORDS"), ("ITEM 1 1 1", "LINE"), ("DRAFT 1", "LINE")]),
    (COUNT, 13, [
        ("COUNTER NO", "LINE"), ("COUNT 2", "LINE"), ("END", "LINE"), ("SIGN", "WORDS"), ("SIGN J SMITH", "WORDS"),
        ("SIGN -", "VALUE 1 EMPTY"), ("SIGN THIRTEENCHARS", "VALUE 1 TOOLONG 13"), ("SIGN SM*TH", "VALUE 1 NOTDIGIT 2"),
    ]),
    (COUNT_SIGNED, 24, [
        ("ITEM 1 12 1.25", "LINE"), ("SIGN SMITH", "LINE"), ("TOLERANCE 5", "LINE"), ("COUNTER", "WORDS"), ("COUNTER 1 12 1.25", "WORDS"),
        ("COUNTER -", "VALUE 1 EMPTY"), ("COUNTER MAYBE", "VALUE 1 RANGE"), ("COUNTER yes", "VALUE 1 RANGE"), ("COUNTER Y", "VALUE 1 RANGE"),
    ]),
    (COUNT_FRONT, 35, [
        ("COUNTER NO", "LINE"), ("COUNT 2", "LINE"), ("ALLOW 90 02 T 1", "LINE"), ("ITEM 1 12", "WORDS"), ("ITEM 1 12 EA - 1.25", "WORDS"),
        ("ITEM - 12 1.25", "VALUE 1 EMPTY"), (f"ITEM {DIGITS} 12 1.25", "VALUE 1 TOOLONG 16"), ("ITEM -1 12 1.25", "VALUE 1 NOTDIGIT 0"),
        ("ITEM 0 12 1.25", "VALUE 1 RANGE"), ("ITEM 10000 - 1.25", "VALUE 1 RANGE"),
        ("ITEM 1 - 1.25", "VALUE 2 EMPTY"), (f"ITEM 1 {DIGITS} 1.25", "VALUE 2 TOOLONG 16"), ("ITEM 1 1.5 1.25", "VALUE 2 NOTDIGIT 1"),
        ("ITEM 1 100000 x", "VALUE 2 RANGE"),
        ("ITEM 1 12 -", "VALUE 3 EMPTY"), (f"ITEM 1 12 {DIGITS}", "VALUE 3 TOOLONG 16"), ("ITEM 1 12 1.2x", "VALUE 3 NOTDIGIT 3"),
        ("ITEM 1 12 1.23456", "VALUE 3 DECIMALS 5"), ("ITEM 1 12 1.23456x", "VALUE 3 NOTDIGIT 7"), ("ITEM 1 12 100000", "VALUE 3 RANGE"),
        ("END END", "WORDS"), ("END.", "LINE"),
    ]),
    (COUNT_FRONT + "ITEM 1 12 1.25\n", 50, [("ITEM 0001 3 .3333", "TWICE"), ("ITEM 1 3 -", "VALUE 3 EMPTY"), ("COUNTER YES", "LINE")]),
]

# A text that ends inside a part, behind each kind of line, and how many bytes it has.
CUT = [
    ("DRAFTS", DRAFT, 27), ("DRAFTS", SIGNED, 38), ("DRAFTS", FRONT, 50), ("DRAFTS", ITEM, 70), ("DRAFTS", FRONT + "ALLOW 90 06 T 1\n", 66),
    ("DRAFTS", ITEM + "ALLOW 90 06 R 1\n", 86), ("DRAFTS", FRONT + "COUNTER 1 2 3\n", 64), ("DRAFTS", FRONT + "END\n" + DRAFT.replace("1", "2"), 81),
    ("COUNTS", COUNT, 13), ("COUNTS", COUNT_SIGNED, 24), ("COUNTS", COUNT_FRONT, 35), ("COUNTS", COUNT_FRONT + "ITEM 1 12 1.25\n", 50),
]

# ---- what editors and other programs make of a text

WHOLE = ITEM + "END\n"
OTHERS = [
    ("an empty text", "DRAFTS", "", None), ("an empty text", "COUNTS", "", None),
    ("no LF at the end", "DRAFTS", WHOLE[:-1], "REFUSED 70 WORDS"), ("no LF at the end", "COUNTS", COUNT_FRONT + "END", "REFUSED 35 WORDS"),
    ("no LF, and no word of a line", "DRAFTS", WHOLE[:-2], "REFUSED 70 LINE"), ("no LF in a first line", "DRAFTS", DRAFT[:-1], "REFUSED 0 WORDS"),
    ("CR LF", "DRAFTS", WHOLE.replace("\n", "\r\n"), None), ("LF and CR LF", "DRAFTS", WHOLE.replace("S\n", "S\r\n"), None),
    ("CR LF", "COUNTS", COUNT_FRONT.replace("\n", "\r\n") + "END\r\n", None),
    ("CR alone", "DRAFTS", WHOLE.replace("\n", "\r"), "REFUSED 0 WORDS"), ("CR alone", "COUNTS", COUNT_FRONT.replace("\n", "\r"), "REFUSED 0 WORDS"),
    ("CR and no LF at the end", "DRAFTS", WHOLE[:-1] + "\r", "REFUSED 70 LINE"), ("CR CR LF", "DRAFTS", WHOLE[:-1] + "\r\r\n", "REFUSED 70 LINE"),
    ("CR CR LF", "DRAFTS", FRONT.replace("S\n", "S\r\r\n"), "REFUSED 27 VALUE 1 NOTDIGIT 5"),
    ("a CR inside a word", "DRAFTS", FRONT.replace("NES", "N\rS"), "REFUSED 27 VALUE 1 NOTDIGIT 3"),
    ("tabs", "DRAFTS", DRAFT.replace(" ", "\t"), "REFUSED 0 LINE"), ("a tab for a space", "DRAFTS", DRAFT.replace("D 2", "D\t2"), "REFUSED 0 WORDS"),
    ("a tab behind a word", "DRAFTS", DRAFT + "SIGN JONES\t\n", "REFUSED 27 VALUE 1 NOTDIGIT 5"),
    ("a tab in front", "DRAFTS", DRAFT + "\tSIGN JONES\n", "REFUSED 27 LINE"),
    ("two spaces", "DRAFTS", DRAFT.replace("1 D", "1  D"), "REFUSED 0 WORDS"),
    ("two spaces for a word", "DRAFTS", DRAFT.replace("- -", "-  -", 1), "REFUSED 0 WORDS"),
    ("two spaces for an empty word", "DRAFTS", "DRAFT 1 D 20240229  - - -\n", "REFUSED 0 WORDS"),
    ("a space at the end", "DRAFTS", DRAFT + "SIGN JONES \n", "REFUSED 27 WORDS"), ("a space in front", "DRAFTS", " " + DRAFT, "REFUSED 0 LINE"),
    ("a space behind END", "COUNTS", COUNT_FRONT + "END \n", "REFUSED 35 WORDS"), ("two spaces", "COUNTS", "COUNT  100001\n", "REFUSED 0 WORDS"),
    ("a byte order mark", "DRAFTS", "\xef\xbb\xbf" + WHOLE, "REFUSED 0 LINE"),
    ("a byte order mark", "COUNTS", "\xef\xbb\xbf" + COUNT, "REFUSED 0 LINE"),
    ("a byte order mark alone", "DRAFTS", "\xef\xbb\xbf", "REFUSED 0 LINE"),
    ("UTF-16", "DRAFTS", WHOLE.encode("utf-16").decode("latin-1"), "REFUSED 0 LINE"),
    ("an empty line in front", "DRAFTS", "\n" + WHOLE, "REFUSED 0 LINE"), ("an empty line behind", "DRAFTS", WHOLE + "\n", "REFUSED 74 LINE"),
    ("an empty line inside", "COUNTS", COUNT_FRONT + "\r\nEND\r\n", "REFUSED 35 LINE"),
    ("a comment", "DRAFTS", "# today\n" + WHOLE, "REFUSED 0 LINE"),
    ("a byte 1A behind", "DRAFTS", WHOLE + "\x1a", "REFUSED 74 LINE"),
    ("a byte 00 inside", "DRAFTS", DRAFT + "SIGN J\x00\n", "REFUSED 27 VALUE 1 NOTDIGIT 1"),
    ("a letter of another alphabet", "DRAFTS", DRAFT + "SIGN J\xc3\x96\n", "REFUSED 27 VALUE 1 NOTDIGIT 1"),
    ("counts as drafts", "DRAFTS", COUNT_FRONT + "END\n", "REFUSED 0 LINE"), ("drafts as counts", "COUNTS", WHOLE, "REFUSED 0 LINE"),
    ("a set 894", "DRAFTS", "ST*894*0001\r\n", "REFUSED 0 LINE"),
    ("a script", "DRAFTS", "HANDHELD HH00000001 RR00000001\nDRAFTS\n", "REFUSED 0 LINE"),
    ("a line of a million bytes", "DRAFTS", "DRAFT " + "1" * 1_000_000 + " D 20240229 - - - -\n", "REFUSED 0 VALUE 1 TOOLONG 1000000"),
    ("a million spaces", "DRAFTS", "DRAFT" + " " * 1_000_000 + "\n", "REFUSED 0 WORDS"),
]

# ---- the limits

DRAFTS_200 = "".join(f"DRAFT {n} D 20240229 - - - -\nSIGN JONES\nTOLERANCE 5\nEND\n" for n in range(100, 300))
ITEMS_999 = FRONT + "".join(f"ITEM {n} 1 EA - 1\n" for n in range(1_001, 2_000))
COUNTERS_999 = FRONT + "".join(f"COUNTER {n} 1 1\n" for n in range(1_001, 2_000))
ALLOWANCES_20, ITEM_ALLOWANCES_20 = FRONT + "ALLOW 90 06 T 1\n" * 20, ITEM + "ALLOW 90 06 T 1\n" * 20
COUNTS_200 = "".join(f"COUNT {n}\nSIGN SMITH\nCOUNTER NO\nEND\n" for n in range(100, 300))
COUNTED_999 = COUNT_FRONT + "".join(f"ITEM {n} 1 1\n" for n in range(1_001, 2_000))
LIMITS = [
    ("DRAFTS", DRAFTS_200, None), ("DRAFTS", DRAFTS_200 + DRAFT, "REFUSED 11200 LIMIT"),
    ("DRAFTS", DRAFTS_200 + "DRAFT 100 X - - - - -\n", "REFUSED 11200 LIMIT"),
    ("DRAFTS", DRAFTS_200 + "DRAFT 100\n", "REFUSED 11200 WORDS"), ("DRAFTS", DRAFTS_200 + "END\n", "REFUSED 11200 LINE"),
    ("DRAFTS", ITEMS_999 + "END\n", None), ("DRAFTS", ITEMS_999 + "ITEM 1 1 EA - 1\n", "REFUSED 19031 LIMIT"),
    ("DRAFTS", ITEMS_999 + "ITEM 1001 x - - -\n", "REFUSED 19031 LIMIT"), ("DRAFTS", ITEMS_999 + "ITEM 1\n", "REFUSED 19031 WORDS"),
    ("DRAFTS", ITEMS_999 + COUNTERS_999[50:] + "END\n", None),
    ("DRAFTS", COUNTERS_999 + "END\n", None), ("DRAFTS", COUNTERS_999 + "COUNTER 1 1 1\n", "REFUSED 17033 LIMIT"),
    ("DRAFTS", COUNTERS_999 + "COUNTER 1001 - -\n", "REFUSED 17033 LIMIT"), ("DRAFTS", COUNTERS_999 + "ITEM 1 1 EA - 1\n", "REFUSED 17033 LINE"),
    ("DRAFTS", ALLOWANCES_20 + "END\n", None), ("DRAFTS", ALLOWANCES_20 + "ALLOW 90 06 T 1\n", "REFUSED 370 LIMIT"),
    ("DRAFTS", ALLOWANCES_20 + "ALLOW - 06 R x\n", "REFUSED 370 LIMIT"), ("DRAFTS", ALLOWANCES_20 + "ALLOW 90 06 T\n", "REFUSED 370 WORDS"),
    ("DRAFTS", ITEM_ALLOWANCES_20 + "END\n", None), ("DRAFTS", ITEM_ALLOWANCES_20 + "ALLOW 90 06 R 1\n", "REFUSED 390 LIMIT"),
    ("DRAFTS", ALLOWANCES_20 + ITEM_ALLOWANCES_20[50:] + ITEM_ALLOWANCES_20[50:].replace("ITEM 1", "ITEM 2") + "END\n", None),
    ("COUNTS", COUNTS_200, None), ("COUNTS", COUNTS_200 + COUNT, "REFUSED 7200 LIMIT"), ("COUNTS", COUNTS_200 + "COUNT *\n", "REFUSED 7200 LIMIT"),
    ("COUNTS", COUNTS_200 + "COUNT\n", "REFUSED 7200 WORDS"), ("COUNTS", COUNTED_999 + "END\n", None),
    ("COUNTS", COUNTED_999 + "ITEM 1 1 1\n", "REFUSED 14021 LIMIT"), ("COUNTS", COUNTED_999 + "ITEM 1001 - -\n", "REFUSED 14021 LIMIT"),
    ("COUNTS", COUNTED_999 + "ITEM 1001\n", "REFUSED 14021 WORDS"),
]

# ---- texts that are read, and what they say

READ = [
    ("DRAFTS", "DRAFT A-7/b C 00000229 12345 - - 0042\nSIGN TWELVECHARS1\nTOLERANCE 099999999999\nALLOW 90 02 T 010\nALLOW 91 06 P 2.5\n"
     "ITEM 0027 3 CA 012345678905 .3333\nALLOW 92 06 R 1.\nALLOW 93 01 P .01\nITEM 9999 0 EA - 99999.9999\nCOUNTER 9999 99999 0\nCOUNTER 27 0 .0001\nEND\n", [
         "DRAFT*A-7/b*C*00000229*12345***0042", "REST*0**", "SIGN*TWELVECHARS1*", "TOLERANCE*99999999999", "TOTALS*3*393",
         "ALLOW*90*02******10**", "ALLOW*91*06*******250*", "ITEM*27*3*CA*012345678905****3333***", "ALLOW*92*06***10000*****", "ALLOW*93*01*******1*",
         "ITEM*9999*0*EA*****999999999***", "COUNTED*9999*99999*0", "COUNTED*27*0*1", "END"]),
    ("DRAFTS", FRONT + "ALLOW 90 06 T 99999999999\nEND\n" + FRONT.replace("1 D", "01 C") + "ALLOW 90 02 T 1\nITEM 1 1 EA - .005\nEND\n", [
        "DRAFT*1*D*20240229****", "REST*0**", "SIGN*JONES*", "TOLERANCE*5", "TOTALS*0*99999999999", "ALLOW*90*06******99999999999**", "END",
        "DRAFT*01*C*20240229****", "REST*0**", "SIGN*JONES*", "TOLERANCE*5", "TOTALS*1*0", "ALLOW*90*02******1**", "ITEM*1*1*EA*****50***", "END"]),
]

# ---- worked choices: the text, the sets of the delivery, what the last own proposal came to, and what is done

A, B, C = "delivery.894", "adjustment.895", "counter.895"
PROMOTION = "promotion.894"
# A set up to its integrity value: a line of quantity 0, and one of 3.
EMPTIED = (
    "ST*894*0001\r\nG82*D*100001*****20240229\r\nLS*0100\r\nG83*1*0*EA*****.05\r\nG83*2*3*EA*012345678912****.3333\r\nLE*0100\r\n"
    "G84*3*100\r\nG86*JONES\r\n"
)


def drafts_with(tolerance, *counters, number="100001"):
    return f"DRAFT {number} D 20240229 - - - -\nSIGN JONES\nTOLERANCE {tolerance}\n" + "".join(f"COUNTER {text}\n" for text in counters) + "END\n"


def counts_with(answer, *items, number="100001"):
    return f"COUNT {number}\nSIGN SMITH\nCOUNTER {answer}\n" + "".join(f"ITEM {text}\n" for text in items) + "END\n"


LINE_1, LINE_2 = "ITEM*1*{}*EA*012345678905****{}***", "ITEM*2*{}*EA*012345678912****{}***"
COUNTERED = ["ITEM*9*1*EA*****75000***", LINE_1.format(11, 12500), LINE_2.format(3, 3333)]
COUNTERS = ("9 1 7.5", "1 11 1.25", "2 3 .3333")
SUPPLIER = [
    # The adjustment comes to 1350.
    (drafts_with(250), [A, B], 1600, "ACCEPT"), (drafts_with(249), [A, B], 1600, "WAIT"), (drafts_with(251), [A, B], 1600, "ACCEPT"),
    (drafts_with(250), [A, B], 1100, "ACCEPT"), (drafts_with(249), [A, B], 1100, "WAIT"), (drafts_with(251), [A, B], 1100, "ACCEPT"),
    (drafts_with(0), [A, B], 1350, "ACCEPT"), (drafts_with(0), [A, B], 1351, "WAIT"), (drafts_with(0), [A, B], 1349, "WAIT"),
    (drafts_with(249, *COUNTERS), [A, B], 1600, "ADJUST", COUNTERED), (drafts_with(250, *COUNTERS), [A, B], 1600, "ACCEPT"),
    (drafts_with(249, "2 3 .3333"), [A, B], 1600, "ADJUST", [LINE_2.format(3, 3333)]),
    (drafts_with(99999999999), [A, B], 99999999999, "ACCEPT"), (drafts_with(99999998648), [A, B], 99999999999, "WAIT"),
    # Of level 0, and of level 2, which comes to 2115.
    (drafts_with(249, *COUNTERS), [A], 1350, "WAIT"), (drafts_with(250, *COUNTERS), [A], 1350, "ACCEPT"),
    (drafts_with(514, *COUNTERS), [A, B, C], 1601, "ACCEPT"), (drafts_with(513, *COUNTERS), [A, B, C], 1601, "WAIT"),
    # Without a last own amount, without a draft, without drafts.
    (drafts_with(250, *COUNTERS), [A, B], None, "WAIT"), (drafts_with(250, *COUNTERS, number="100002"), [A, B], 1350, "WAIT"),
    ("", [A, B], 1350, "WAIT"),
]
RECEIVER = [
    (counts_with("NO", "1 12 1.25", "2 3 .3333"), [A], None, "ACCEPT"), (counts_with("NO", "2 3 .3333", "1 12 1.25"), [A], None, "ACCEPT"),
    (counts_with("NO", "1 10 1.25", "2 3 .3333"), [A], None, "ADJUST", [LINE_1.format(10, 12500)]),
    (counts_with("YES", "1 12 1.2501", "2 3 .3333"), [A], None, "ADJUST", [LINE_1.format(12, 12501)]),
    (counts_with("NO", "1 12 1.25"), [A], None, "ADJUST", [LINE_2.format(0, 3333)]),
    (counts_with("NO"), [A], None, "ADJUST", [LINE_1.format(0, 12500), LINE_2.format(0, 3333)]),
    (counts_with("NO", "7 0 5", "2 4 .3333", "3 1 1", "1 11 1.25"), [A], None, "ADJUST",
     [LINE_1.format(11, 12500), LINE_2.format(4, 3333), "ITEM*7*0*EA*****50000***", "ITEM*3*1*EA*****10000***"]),
    (counts_with("NO", "1 10 1.25", "2 3 .3333"), [A, B], None, "ACCEPT"), (counts_with("NO", "1 12 1.25", "2 3 .3333"), [A, B], None, "WAIT"),
    (counts_with("YES", "1 12 1.25", "2 3 .3333"), [A, B], None, "WAIT"),
    (counts_with("YES", "1 12 1.25", "2 3 .3333"), [A, B, C], None, "ACCEPT"), (counts_with("NO", "1 12 1.25", "2 3 .3333"), [A, B, C], None, "WAIT"),
    (counts_with("NO", "1 11 1.25", "2 3 .3333", "3 1 7.5"), [A, B, C], None, "ACCEPT"),
    (counts_with("NO", "2 3 .3333"), [EMPTIED], None, "ACCEPT"), (counts_with("NO"), [EMPTIED], None, "ADJUST", [LINE_2.format(0, 3333)]),
    (counts_with("NO", "1 0 .05", "2 3 .3333"), [EMPTIED], None, "ACCEPT"),
    (counts_with("NO", "1 0 .06", "2 3 .3333"), [EMPTIED], None, "ADJUST", ["ITEM*1*0*EA*****600***"]),
    (counts_with("YES", number="100002"), [A], None, "WAIT"), ("", [A], None, "WAIT"),
    (counts_with("NO", "2 3 .3333", "1 13 1.25", "3 48 7", number="100003"), [PROMOTION], None, "ADJUST", [
        "ITEM*1*13*EA*012345678905****12500***", "ALLOW*90*02*1**1000*12*EA***", "NOTE*G22*1*KEEP COOL",
        "ITEM*3*48*CA*012345678929****70000***", "NOTE*G23*2 CASES DENTED"]),
]
