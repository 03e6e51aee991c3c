#!/usr/bin/env python3
"""figures.py [PROGRAM]

Makes large inputs, runs the program on each, and prints what it took: instructions (counted by
callgrind), instructions a byte, and peak memory. Then it measures adjustments of 10 to 999 lines with
the program bench_versions, the sets of a transmission one by one, a session of the line with the
program bench_line, entries of a journal with bench_journal, the opening of a long one with book_trace, and a session of both ends with bench_end. It judges nothing and always ends with status 0. PROGRAM is crates/dex/out/dex where none is given.
"""
import os
import re
import shutil
import subprocess
import sys
import tempfile
import time

HOME = os.path.dirname(os.path.dirname(os.path.abspath(__file__)))


def remainder_table():
    """The remainder of each byte: polynomial x^16 + x^15 + x^2 + 1, the lowest bit first."""
    table = []
    for value in range(256):
        for _ in range(8):
            value = value >> 1 ^ (0xA001 if value & 1 else 0)
        table.append(value)
    return table


REMAINDERS = remainder_table()


def check_of(data):
    check = 0
    for byte in data:
        check = check >> 8 ^ REMAINDERS[(check ^ byte) & 0xFF]
    return check


def sealed(segments, control):
    """The text of a set: its segments, then G85 with their check, then SE with their number."""
    text = b"".join(segment.encode() + b"\r\n" for segment in segments)
    trailer = "G85*%04X\r\nSE*%d*%04d\r\n" % (check_of(text), len(segments) + 2, control)
    return text + trailer.encode()


def check_in(text):
    """The check that a set has."""
    return text[text.index(b"G85*") + 4 :][:4].decode()


def delivery(items, quantity, amount, number=100_001, control=1):
    head = ["ST*894*%04d" % control, "G82*D*%d*****20240229" % number, "LS*0100"]
    totals = ["LE*0100", "G84*%d*%d" % (quantity, amount), "G86*JONES"]
    return sealed(head + items + totals, control)


def answer(letter, number, check, lines, totals, mark, control):
    """An adjustment of level 1, or without lines its acceptance."""
    rows = ["LS*0100"] + lines + ["LE*0100"] if lines else []
    head = ["ST*895*%04d" % control, "G87*%s*D*%d*%s*1" % (letter, number, check)]
    return sealed(head + rows + ["G84*%d*%d" % totals, "G86*%s" % mark], control)


def item(number, *more):
    """A line of 12 units at 1.25, 1500 cents."""
    words = ["G83", str(number), "12", "EA", "012345678905", "UP", "ITEM%05d" % number, "CS", "1.25", "24"]
    return "*".join(words + list(more))


def full_set():
    """999 lines, the most that a delivery has, with all words filled and a long tail."""
    items = [item(number, "L" * 30, "T" * 40, "X" * 132) for number in range(1, 1000)]
    return delivery(items, 999 * 12, 999 * 1500)


def set_with_allowances():
    """400 lines with six allowances each: three that lower by 120 cents, three that raise by 150."""
    items = []
    for number in range(1, 401):
        items.append(item(number, "L" * 30))
        items += ["G72*90*02*1**.1*12*EA", "G72*91*06*1******10"] * 3
    return delivery(items, 400 * 12, 400 * (1500 - 3 * 120 + 3 * 150))


def set_with_notes():
    """One line with 8,000 references before it, and 8,000 notes at it and as many behind it."""
    segments = ["ST*894*0001", "G82*D*100001*****20240229"] + ["N9*PO*7"] * 8_000 + ["LS*0100", "G83*1*12*EA*****1.25"]
    return sealed(segments + ["G22*A*12"] * 8_000 + ["LE*0100"] + ["G23*B*1"] * 8_000 + ["G84*12*1500", "G86*JONES"], 1)


def small_set():
    """The smallest delivery of two lines that is sent often: 172 bytes."""
    items = ["G83*1*12*EA*012345678905****1.25", "G83*2*3*EA*012345678912****.3333"]
    return delivery(items, 15, 1600)


def transmission(sets):
    """The text that carries these sets."""
    header = b"DXS*HH00000001*DX*004010UCS*1*RR00000001\r\n"
    return header + b"".join(sets) + b"DXE*1*%d\r\n" % len(sets)


def small_sets():
    """A transmission near 270,000 bytes, the most that is sent: 1,569 deliveries of two lines."""
    return transmission([small_set()] * 1_569)


def adjustment(count, number=100_001, control=1, answer_control=1):
    """A delivery of so many lines, and an answer that adjusts each of them from 12 units to 11."""
    base = delivery([item(line) for line in range(1, count + 1)], count * 12, count * 1500, number, control)
    lines = [item(line).replace("G83*%d*12*" % line, "G89*%d*11*" % line) for line in range(1, count + 1)]
    return base, answer("R", number, check_in(base), lines, (count * 11, count * 1375), "SMITH", answer_control)


def entry(kind, text):
    return b"\xa5" + kind + len(text).to_bytes(4, "big") + text


def supplier_journal(deliveries, lines):
    """A supplier's journal of deliveries of so many lines, each signed, adjusted by the store in all its lines, and accepted."""
    told = b"DEXJ1HHH00000001RR00000001\n"
    for place in range(1, deliveries + 1):
        base, adjusted = adjustment(lines, 200_000 + place, 2 * place - 1, place)
        accepted = answer("S", 200_000 + place, check_in(adjusted), [], (lines * 11, lines * 1375), "JONES", 2 * place)
        told += entry(b"S", base) + entry(b"T", adjusted) + entry(b"S", accepted)
    return told + b"\0"


def full_journal():
    """A handheld's journal of 200 deliveries of 50 lines: each signed, then each adjusted in one line by the store, then each accepted."""
    signed, taken, accepted = [], [], []
    for number in range(1, 201):
        lines = ["G83*%d*12*EA*%012d****1.25" % (line, line * 977) for line in range(1, 51)]
        signed.append(delivery(lines, 600, 75_000, 500_000 + number, number))
        counted = ["G89*1*11*EA*%012d****1.25" % 977]
        taken.append(answer("R", 500_000 + number, check_in(signed[-1]), counted, (599, 74_875), "SMITH", number))
        accepted.append(answer("S", 500_000 + number, check_in(taken[-1]), [], (599, 74_875), "SMITH", 200 + number))
    told = b"".join(entry(b"S", text) for text in signed) + b"".join(entry(b"T", text) for text in taken)
    return b"DEXJ1HHH00000001RR00000001\n" + told + b"".join(entry(b"S", text) for text in accepted) + b"\0"


def refused_early():
    """4 MB of whole segments, of which the second may not stand there."""
    return b"ST*894*0001\r\n" + b"G83*1*12*EA*012345678905****1.25\r\n" * 123_000


def captured_line():
    """4.1 MB of one direction of a cable: turns of an enquiry, a reply, a block of 240 bytes that
    others follow, a reply and the end."""
    text = bytes(0x20 + place * 7 % 95 for place in range(240))
    check = check_of(text + b"\x17")
    block = b"\x10\x02" + text + b"\x10\x17" + check.to_bytes(2, "little")
    turn = b"\x05" + b"\x10\x30" + block + b"\x10\x31" + b"\x04"
    return turn * (4_100_000 // len(turn))


def replayed_route():
    """A script of 200 deliveries of 50 lines, in each fourth of which one item less is found, and one clean session."""
    drafts, counts = route(200)
    ends = b"HANDHELD HH00000001 RR00000001\nRECEIVER RR00000001 HH00000001\n"
    return ends + b"DRAFTS\n" + drafts + b"COUNTS\n" + counts + b"EVENTS\nCLEAN\n"


INPUTS = [
    ("set", ["check", "set"], full_set),
    ("allowances", ["check", "set"], set_with_allowances),
    ("notes", ["check", "set"], set_with_notes),
    ("refused", ["check", "set"], refused_early),
    ("text", ["check", "text"], small_sets),
    ("line", ["check", "line"], captured_line),
    ("replay", ["replay"], replayed_route),
]


def full_pipe():
    """A pipe that takes no byte more until it is read: its two ends, and how many bytes it holds."""
    reading, writing = os.pipe()
    os.set_blocking(writing, False)
    held = 0
    try:
        while True:
            held += os.write(writing, bytes(4096))
    except BlockingIOError:
        os.set_blocking(writing, True)
        return reading, writing, held


def peak_when_asleep(child):
    """The most memory that a process has had, in KiB, told once it sleeps; None where it ends before."""
    while child.poll() is None:
        with open("/proc/%d/stat" % child.pid) as stat:
            asleep = stat.read().rpartition(") ")[2].startswith("S")
        with open("/proc/%d/status" % child.pid) as status:
            peak = re.search(r"VmHWM:\s*(\d+)", status.read())
        if asleep and peak:
            return int(peak.group(1))
        time.sleep(0.002)
    return None


def run(command, source):
    """Runs a command on a file. Gives its status, its peak memory and its output. The peak is read
    while the program waits to write its report into a full pipe: all that it needs it has by then."""
    reading, writing, held = full_pipe()
    with open(source, "rb") as standard_input:
        child = subprocess.Popen(command, stdin=standard_input, stdout=writing)
    os.close(writing)
    peak = peak_when_asleep(child)
    with open(reading, "rb") as report:
        output = report.read()[held:]
    return child.wait(), peak, output


def instructions(command, source, folder):
    """How many instructions callgrind counts, process start included, or None."""
    if shutil.which("valgrind") is None:
        return None
    tool = ["valgrind", "--tool=callgrind", "--callgrind-out-file=" + os.path.join(folder, "callgrind.out")]
    with open(source, "rb") as standard_input:
        told = subprocess.run(
            tool + command, stdin=standard_input, stdout=subprocess.DEVNULL, stderr=subprocess.PIPE
        ).stderr.decode("latin-1")
    found = re.search(r"Collected\s*:\s*(\d+)", told)
    return int(found.group(1)) if found else None


def measure(program, folder):
    source = os.path.join(folder, "input")
    print("%-11s %9s %13s %7s %9s %7s  %s" % ("input", "bytes", "instructions", "a byte", "peak KiB", "status", "last line"))
    for name, words, make in INPUTS:
        with open(source, "wb") as file:
            size = file.write(make())
        status, peak, output = run([program] + words, source)
        count = instructions([program] + words, source, folder)
        told = "-" if count is None else "%d" % count
        each = "-" if count is None else "%.2f" % (count / size)
        last = (output.splitlines() or [b"(nothing)"])[-1].decode("latin-1")
        print("%-11s %9d %13s %7s %9s %7d  %s" % (name, size, told, each, peak or "-", status, last))


def measure_show(program, folder):
    """What a journal takes that is shown."""
    journal = os.path.join(folder, "journal.dex")
    with open(journal, "wb") as file:
        size = file.write(full_journal())
    status, peak, output = run([program, "show", journal], os.devnull)
    count = instructions([program, "show", journal], os.devnull, folder)
    told = "-" if count is None else "%d" % count
    each = "-" if count is None else "%.2f" % (count / size)
    print("%-11s %9d %13s %7s %9s %7d  %s" % ("journal", size, told, each, peak or "-", status, (output.splitlines() or [b"(nothing)"])[-1].decode("latin-1")))


def counted(command, data, folder):
    """The instructions that a command takes on these bytes, or None."""
    source = os.path.join(folder, "input")
    with open(source, "wb") as file:
        file.write(data)
    return instructions(command, source, folder)


def measure_sets(program, folder):
    """What the sets of the transmission take one by one, process start taken off."""
    start = counted([program, "check", "set"], b"", folder)
    one = counted([program, "check", "set"], small_set(), folder)
    if start is not None:
        print("\none set of the text by itself: %.2f instructions a byte" % ((one - start) / len(small_set())))


def measure_versions(program, folder):
    """What an adjustment of all lines takes, reading both sets included, process start taken off."""
    if not os.access(program, os.X_OK):
        print("\nno program at", program, "- build it with: cd crates/bench_versions && rt run < stdin")
        return
    start = counted([program], transmission([]), folder)
    if start is None:
        return
    print("\n%5s %11s %11s  %s" % ("lines", "both sets", "the base", "a line of both, of the base alone"))
    for count in (10, 100, 500, 999):
        base, answer = adjustment(count)
        both = counted([program], transmission([base, answer]), folder) - start
        alone = counted([program], transmission([base]), folder) - start
        print("%5d %11d %11d  %.0f, %.0f" % (count, both, alone, both / count, alone / count))


def turns_of_blocks():
    """4.1 MB that a receiver's session takes in sixteen turns: an enquiry, blocks of 240 bytes, and the end."""
    text = bytes(0x20 + place * 7 % 95 for place in range(240))
    blocks = [text + closing for closing in (b"\x17", b"\x03")]
    more, last = [b"\x10\x02" + text + b"\x10" + block[-1:] + check_of(block).to_bytes(2, "little") for block in blocks]
    return (b"\x05" + more * 1_050 + last + b"\x04") * 16


def measure_line(program, folder):
    """What a session takes beside the scanner, and beside the writing of what it sends."""
    if not os.access(program, os.X_OK):
        print("\nno program at", program, "- build it with: cd crates/bench_line && rt run -- send < stdin")
        return
    heard, each = turns_of_blocks(), small_set()
    sent = 16 * (260_000 // len(each)) * len(each)
    print()
    for more, less, data, size in (("take", "scan", heard, len(heard)), ("send", "build", each, sent)):
        both = counted([program, more], data, folder)
        if both is None:
            return
        beside = both - counted([program, less], data, folder)
        print("%s: %d instructions beside %s, %.2f a byte" % (more, beside, less, beside / size))


def measure_journal(program, folder):
    """What entries ask of a station behind one gate, and the time that 400 take in a file, one by one and behind one gate."""
    if not os.access(program, os.X_OK):
        print("\nno program at", program, "- build it with: cd crates/bench_journal && rt run")
        return
    print()
    print(subprocess.run([program], capture_output=True, text=True).stdout, end="")
    for way in ("append", "flush"):
        took = []
        for run_number in range(5):
            start = time.monotonic()
            subprocess.run([program, way, "400", os.path.join(folder, "%s%d.dex" % (way, run_number))], stdout=subprocess.DEVNULL)
            took.append(time.monotonic() - start)
        print("400 entries by %s: %.1f ms, the median of five runs" % (way, 1000 * sorted(took)[2]))


def measure_book(program, folder):
    """What opening a book over a long journal takes."""
    journal, calls = os.path.join(folder, "journal.dex"), os.path.join(folder, "calls")
    with open(journal, "wb") as file:
        size = file.write(supplier_journal(200, 50))
    with open(calls, "wb") as file:
        file.write(b"flush\n")
    print("\na journal of %d bytes, 200 deliveries of 50 lines in 600 entries:" % size)
    if not os.access(program, os.X_OK):
        print("no program at", program, "- build it with: cd crates/book_trace && rt run")
        return
    command = [program, "S", journal]
    status, peak, output = run(command, calls)
    last = (output.splitlines() or [b"(nothing)"])[-1].decode("latin-1")
    print("opened: %s instructions, %s KiB, status %d, %s" % (instructions(command, calls, folder), peak or "-", status, last))


def route(count, lines=50):
    """Drafts of so many deliveries, and counts that find one item less in each fourth."""
    drafts, counts = [], []
    for i in range(1, count + 1):
        drafts += ["DRAFT %d D 20240101 - - - -" % (500_000 + i), "SIGN LOAD", "TOLERANCE 1000000"]
        counts += ["COUNT %d" % (500_000 + i), "SIGN LOAD", "COUNTER NO"]
        for j in range(1, lines + 1):
            quantity, cost = 1 + (7 * i + 3 * j) % 24, 1 + (13 * i + 17 * j) % 900
            found = quantity - 1 if j == 1 and i % 4 == 0 else quantity
            drafts.append("ITEM %d %d EA - %d.%02d" % (j, quantity, cost // 100, cost % 100))
            counts.append("ITEM %d %d %d.%02d" % (j, found, cost // 100, cost % 100))
        drafts.append("END")
        counts.append("END")
    return ["".join(line + "\n" for line in lines).encode() for lines in (drafts, counts)]


def measure_ends(program, folder):
    """What each end of a session takes alone, with its script read, its journal made and what the other end said fed to it."""
    if not os.access(program, os.X_OK):
        print("\nno program at", program, "- build it with: cd crates/bench_end && rt run")
        return
    for count in (10, 100, 200):
        drafts, counts = route(count)
        script = os.path.join(folder, "script")
        with open(script, "wb") as file:
            file.write(drafts + counts)
        size = str(len(drafts))
        status, peak, output = run([program, "both", size], script)
        print("\n%d deliveries of 50 lines, both ends in %s KiB" % (count, peak or "-"))
        print(output.decode(), end="")
        both = instructions([program, "both", size], script, folder)
        if both is None:
            continue
        for role in ("supplier", "receiver"):
            alone = instructions([program, role, size], script, folder) - both
            print("%s alone: %d instructions, %d a delivery" % (role, alone, alone // count))


def main():
    program = os.path.abspath(sys.argv[1]) if len(sys.argv) > 1 else os.path.join(HOME, "crates", "dex", "out", "dex")
    if not os.access(program, os.X_OK):
        print("no program at", program, "- build it with: cd crates/dex && rt run -- check set < ../../examples/delivery.894")
        return
    with tempfile.TemporaryDirectory() as folder:
        measure(program, folder)
        measure_show(program, folder)
        measure_sets(program, folder)
        measure_versions(os.path.join(HOME, "crates", "bench_versions", "out", "bench_versions"), folder)
        measure_line(os.path.join(HOME, "crates", "bench_line", "out", "bench_line"), folder)
        measure_journal(os.path.join(HOME, "crates", "bench_journal", "out", "bench_journal"), folder)
        measure_book(os.path.join(HOME, "crates", "book_trace", "out", "book_trace"), folder)
        measure_ends(os.path.join(HOME, "crates", "bench_end", "out", "bench_end"), folder)


if __name__ == "__main__":
    try:
        main()
    except Exception as fault:
        print("no figures:", fault)
