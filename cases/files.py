#!/usr/bin/env python3
"""What the program does to real files: cases/files.py PROGRAM

Runs PROGRAM (crates/dex/out/dex where none is given) on files in a folder of its own, and prints each check that differs.
Its last line is 'N passed, N failed'; its status is 1 where one failed. A check that this machine cannot make is told
as skipped: run as root, those of rights are made as nobody.
"""
import fcntl
import functools
import os
import pty
import pwd
import random
import resource
import shutil
import subprocess
import sys
import tempfile
import termios
import time
import tty

HEADER = b"DEXJ1H" + b"HH00000001" + b"RR00000001" + b"\n\0"
OTHER = b"DEXJ1H" + b"HH00000002" + b"RR00000002" + b"\n\0"
LONGER = HEADER + b"an entry's bytes, which no job may touch"
FAULT = b"FAULT STATION\n"
PROGRAM = "./dex"

# a delivery of two lines, and a handheld's journal that has it
DELIVERY = (
    b"ST*894*0001\r\nG82*D*100001*****20240229\r\nLS*0100\r\nG83*1*12*EA*012345678905****1.25\r\nG83*2*3*EA*012345678912****.3333\r\n"
    b"LE*0100\r\nG84*15*1600\r\nG86*JONES\r\nG85*C60A\r\nSE*10*0001\r\n"
)
JOURNAL = HEADER[:27] + b"\xa5S\0\0\0\xac" + DELIVERY + b"\0"
TITLE = b"JOURNAL HANDHELD HH00000001 RR00000001\n"
SHOWN = TITLE + b"1 SIGNED 894 0001 100001 LEVEL 0 CHECK C60A\nENTRIES 1\n"
JOURNAL_BYTES = 67_108_864

passed = failed = 0
rights = {}


def told(name, wrong):
    """Counts a check, and prints what is wrong with it."""
    global passed, failed
    if wrong:
        failed += 1
        print(f"{name}: {'; '.join(wrong)}")
    else:
        passed += 1


def run(words, redirect="", **how):
    """The status and the output of the program, started by a shell with these redirections."""
    shell = ["sh", "-c", f'exec "$0" "$@" {redirect}', PROGRAM, *words]
    done = subprocess.run(shell, capture_output=True, stdin=how.pop("stdin", subprocess.DEVNULL), timeout=20, **how)
    return done.returncode, done.stdout


def unlike(got, printed, status, output):
    """What is wrong with a status that is none of these, and with an output that is not this one, where one is given."""
    wrong = []
    if got not in status:
        wrong.append(f"status {got}, not {' or '.join(map(str, status))}")
    if output is not None and printed != output:
        wrong.append(f"printed {printed[-300:]}, not {output[-300:]}")
    return wrong


def unlike_front(stands, begins):
    """What is wrong with a file that does not begin so."""
    if (stands or b"").startswith(begins):
        return []
    return [f"the file begins with {(stands or b'')[:300]}, not {begins[:300]}"]


def format_words(journal, number=1):
    return ["format", "handheld", f"HH0000000{number}", f"RR0000000{number}", journal]


def content(path):
    """The bytes of a file, or none where it is missing."""
    try:
        with open(path, "rb") as file:
            return file.read()
    except FileNotFoundError:
        return None


def write(path, content):
    with open(path, "wb") as file:
        file.write(content)


def check(name, redirect="", journal="j.dex", before=None, after=None, begins=None, status=(6,), output=None, **how):
    """One format, and what stands under the name then. Before is what stood there, where after and begins are not given."""
    if os.path.lexists("j.dex"):
        os.unlink("j.dex")
    if before is not None:
        write("j.dex", before)
        os.chmod("j.dex", 0o666)
    try:
        got, printed = run(format_words(journal), redirect, **how)
    except subprocess.TimeoutExpired:
        return told(name, ["it hangs"])
    wrong = unlike(got, printed, status, output)
    stands = content("j.dex")
    if begins is not None:
        wrong += unlike_front(stands, begins)
    elif stands != (before if after is None else after):
        wrong.append(f"the file is {stands}")
    told(name, wrong)


def stamp(path):
    """When a file was last written, or nothing where it is missing."""
    return os.stat(path).st_mtime_ns if os.path.isfile(path) else None


def show(name, image=None, redirect="", journal="j.dex", after=None, begins=None, status=(0,), output=None, **how):
    """One show of a file with these bytes, or of a missing one. It stays as it was, and was not written, where after and begins are not given."""
    if os.path.lexists("j.dex"):
        os.unlink("j.dex")
    if image is not None:
        write("j.dex", image)
        os.utime("j.dex", ns=(10**18, 10**18))
    before = stamp("j.dex")
    try:
        got, printed = run(["show", journal], redirect, **how)
    except subprocess.TimeoutExpired:
        return told(name, ["it hangs"])
    wrong = unlike(got, printed, status, output)
    stands = content("j.dex")
    if begins is not None:
        wrong += unlike_front(stands, begins)
    elif stands != (image if after is None else after):
        wrong.append("the file is another")
    elif after is None and stamp("j.dex") != before:
        wrong.append("the file was written")
    told(name, wrong)


def refused(place):
    return {"status": (7,), "output": b"NOT A JOURNAL %d\n" % place}


def shown():
    """What a show does to files: nothing, but that a missing one is made."""
    show("a show of a journal", JOURNAL, output=SHOWN)
    show("a show of a journal without entries", HEADER, output=TITLE + b"ENTRIES 0\n")
    show("a show of a missing file", after=b"", **refused(0))
    show("a show of an empty file", b"", **refused(0))
    show("a show of another program's file", b"\x7fELF\2\1\1\0" + bytes(100), **refused(0))
    show("a show of 64 MiB of zeros", bytes(JOURNAL_BYTES), **refused(0))
    for size in (1, 5, 20, 27, 28, 29, 31, 33, 34, 200, 205):
        show(f"a show of the first {size} bytes", JOURNAL[:size], **refused(size))
    show("a show past the closed gate", JOURNAL + JOURNAL, output=SHOWN)
    show("a show into a device that is full", JOURNAL, "> /dev/full", status=(5,))
    for redirect in (">&-", "<&- >&-", ">&- 2>&-"):
        show(f"a show with {redirect}", JOURNAL, redirect, status=(0, 5))
    show("a show with 2>&-", JOURNAL, "2>&-", output=SHOWN)
    show("a show behind its journal", JOURNAL, ">> j.dex", begins=JOURNAL, status=(6,))
    show("a show over its journal", JOURNAL, "1<> j.dex", status=(5,))
    show("a show of standard input", JOURNAL, "< j.dex", status=(6,), output=FAULT)
    show("a show by a link", JOURNAL, journal="link", output=SHOWN)
    for name in ("fifo", "folder", "dangling", "missing/j.dex", "j.dex/", "/dev/null"):
        show(f"a show of {name}", journal=name, status=(6,), output=FAULT)
    show("a show where no file may grow", JOURNAL, output=SHOWN, preexec_fn=lambda: resource.setrlimit(resource.RLIMIT_FSIZE, (0, 0)), restore_signals=False)
    write("locked.dex", JOURNAL)
    with open("locked.dex", "rb") as file:
        fcntl.flock(file, fcntl.LOCK_EX)
        got, _ = run(["show", "locked.dex"])
        told("a show of a journal that another run holds", [] if (got, content("locked.dex")) == (6, JOURNAL) else [f"status {got}"])
    for mode in (0o000, 0o444, 0o222):
        write("rights.dex", JOURNAL)
        os.chmod("rights.dex", mode)
        got, _ = run(["show", "rights.dex"], **rights)
        os.chmod("rights.dex", 0o666)
        told(f"a show of a file of mode {mode:o}", [] if (got, content("rights.dex")) == (6, JOURNAL) else [f"status {got}"])


def shows_at_once():
    """Two shows of one journal at once: one shows it, and the other does too, or is told that the journal is held."""
    wrong = []
    write("shared.dex", JOURNAL)
    for turn in range(200):
        both = [subprocess.Popen([PROGRAM, "show", "shared.dex"], stdout=subprocess.PIPE) for _ in range(2)]
        ends = sorted((one.communicate(timeout=20)[0], one.returncode) for one in both)
        if ends not in ([(FAULT, 6), (SHOWN, 0)], [(SHOWN, 0), (SHOWN, 0)]) or content("shared.dex") != JOURNAL:
            wrong.append(f"turn {turn}: {ends}")
    told("two shows at once, 200 times", wrong[:3])


def remainder(data):
    """The integrity value: CRC-16/ARC, by a table."""
    check = 0
    for byte in data:
        check = check >> 8 ^ REMAINDERS[(check ^ byte) & 0xFF]
    return check


def remainder_of(value):
    for _ in range(8):
        value = value >> 1 ^ (0xA001 if value & 1 else 0)
    return value


REMAINDERS = [remainder_of(byte) for byte in range(256)]


@functools.cache
def padded(number, size):
    """A delivery of no line with this many bytes in all, most of them in references, and its integrity value."""
    head = b"ST*894*0001\r\nG82*D*%d*****20240229\r\n" % number
    tail = b"G84*0*0\r\nG86*JONES\r\n"
    segments, left = 6, size - len(head) - len(tail) - len(b"G85*0000\r\nSE*6*0001\r\n")
    notes = []
    while left:
        more = 400 if left > 800 else left if left <= 500 else left // 2
        notes.append(b"N9*" + b"A" * (more - 5) + b"\r\n")
        left -= more
        segments += 1
        if segments in (10, 100, 1000):
            left -= 1
    text = head + b"".join(notes) + tail
    check = b"%04X" % remainder(text)
    return text + b"G85*%s\r\nSE*%d*0001\r\n" % (check, segments), check


def filled(length):
    """A receiver's journal of so many bytes: the pieces of its image, and the numbers and integrity values of its deliveries."""
    image, taken = [b"DEXJ1RRR00000001HH00000001\n"], []
    left = length - len(image[0]) - 1
    while left:
        size = min(262_144, left - 6) if not 262_150 < left < 262_400 else 200_000
        text, check = padded(len(taken) + 1, size)
        assert len(text) == size, (len(text), size)
        image.append(taken_entry(text))
        taken.append((len(taken) + 1, check))
        left -= 6 + size
    return [*image, b"\0"], taken


def taken_entry(text):
    return b"\xa5T" + len(text).to_bytes(4, "big") + text


def longest():
    """A receiver's journal of as many bytes as one may have, shown; and with one byte more, refused at the last entry."""
    image, taken = filled(JOURNAL_BYTES)
    lines = [b"%d TOOK 894 0001 %d LEVEL 0 CHECK %s\n" % (number, number, check) for number, check in taken]
    whole = b"".join(image)
    shown = b"JOURNAL RECEIVER RR00000001 HH00000001\n" + b"".join(lines) + b"ENTRIES %d\n" % len(taken)
    show("a show of a journal of 67,108,864 bytes", whole, output=shown)
    size = len(image[-2]) - 6
    longer = b"".join(image[:-2]) + taken_entry(padded(len(taken), size + 1)[0]) + b"\0"
    show("a show of a journal of one byte more", longer, **refused(len(whole) - 1 - size - 5))
    show("a show of it, cut short by one byte", whole[:-1], **refused(len(whole) - 1))


def plain():
    check("a missing file is made", after=HEADER, status=(0,), output=b"FORMATTED\n")
    check("an empty file is used", before=b"", after=HEADER, status=(0,), output=b"FORMATTED\n")
    check("a journal stays", before=LONGER, status=(7,), output=b"NOT EMPTY %d\n" % len(LONGER))
    check("a device that is full takes no report", "> /dev/full", after=HEADER, status=(5,))


def closed():
    """Descriptors that are closed at the start: a null device, or status 4 or 5, and files are whole."""
    for redirect in ("<&-", ">&-", "2>&-", "<&- >&-", ">&- 2>&-", "<&- >&- 2>&-"):
        lost = ">&-" in redirect.replace("2>&-", "")
        check(f"made with {redirect}", redirect, after=HEADER, status=(0, 5) if lost else (0,))
        check(f"a journal stays with {redirect}", redirect, before=LONGER, status=(7, 5) if lost else (7,))
    for redirect, statuses in (("<&-", (3, 4)), ("< /dev/null >&-", (3, 5))):
        got, _ = run(["check", "set"], redirect)
        told(f"check set with {redirect}", [] if got in statuses else [f"status {got}"])


def standard():
    """A journal that is standard input or standard output."""
    check("standard output, cut", "> j.dex", after=FAULT)
    check("standard output, cut, which was a journal", "> j.dex", before=LONGER, after=FAULT)
    check("standard output, behind a journal", ">> j.dex", before=LONGER, begins=LONGER)
    check("standard output, over an empty file", "1<> j.dex", before=b"", after=FAULT)
    check("standard output, over a journal", "1<> j.dex", before=LONGER, status=(5,))
    write("notes.txt", LONGER)
    check("a report over bytes of a file", "1<> notes.txt", before=b"", after=HEADER, status=(5,))
    told("and the file stays", [] if content("notes.txt") == LONGER else [f"{content('notes.txt')}"])
    check("standard output of another name", ">> other.dex; true", before=b"", after=HEADER, status=(0,))
    check("standard input, empty", "< j.dex", before=b"", output=FAULT)
    check("standard input, a journal", "< j.dex", before=LONGER, output=FAULT)
    write("spoken.dex", LONGER)
    got, _ = run(["check", "set"], "1<> spoken.dex")
    told("a check's report over a journal", [] if (got, content("spoken.dex")) == (5, LONGER) else [f"status {got}, the file is {content('spoken.dex')}"])
    write("linked.dex", LONGER)
    os.link("linked.dex", "second.dex")
    got, _ = run(format_words("second.dex"), ">> linked.dex")
    told("standard output by another name of it", [] if got == 6 else [f"status {got}"])


def others():
    """What is no regular file, and names that lead nowhere."""
    os.mkfifo("fifo")
    os.mkdir("folder")
    os.symlink("nothing", "dangling")
    for name in ("fifo", "folder", ".", "/", "dangling", "missing/j.dex", "j.dex/", "/dev/null", "/dev/full", "/dev/tty"):
        before = sorted(os.listdir("."))
        check(f"{name} as a journal", journal=name, output=FAULT)
        told(f"nothing made by {name}", [] if sorted(set(os.listdir(".")) | {"j.dex"}) == sorted(set(before) | {"j.dex"}) else [f"{os.listdir('.')}"])
    os.symlink("j.dex", "link")
    check("a link to an empty file", journal="link", before=b"", after=HEADER, status=(0,))
    try:
        os.mknod("block", 0o60600, os.makedev(511, 1))
    except OSError:
        print("skipped: a block device (none can be made)")
    else:
        check("a block device", journal="block", output=FAULT)


def held():
    """A lock that another run holds."""
    write("locked.dex", LONGER)
    with open("locked.dex", "rb") as file:
        fcntl.flock(file, fcntl.LOCK_EX)
        got, _ = run(format_words("locked.dex"))
        told("a journal that another run holds", [] if (got, content("locked.dex")) == (6, LONGER) else [f"status {got}"])


def denied():
    """Files and folders without the rights to them."""
    for mode in (0o000, 0o444, 0o222):
        write("rights.dex", LONGER)
        os.chmod("rights.dex", mode)
        got, _ = run(format_words("rights.dex"), **rights)
        os.chmod("rights.dex", 0o666)
        told(f"a file of mode {mode:o}", [] if (got, content("rights.dex")) == (6, LONGER) else [f"status {got}"])
    for mode in (0o000, 0o555, 0o333):
        os.mkdir("shut")
        if rights:
            shutil.chown("shut", rights["user"])
        os.chmod("shut", mode)
        got, _ = run(format_words("shut/j.dex"), **rights)
        os.chmod("shut", 0o777)
        told(f"a folder of mode {mode:o}", [] if (got, os.listdir("shut")) == (6, []) else [f"status {got}, it holds {os.listdir('shut')}"])
        shutil.rmtree("shut")


def full():
    """No room for a byte: by a limit on files, and on a disk that is full."""
    limit = {"preexec_fn": lambda: resource.setrlimit(resource.RLIMIT_FSIZE, (0, 0)), "restore_signals": False}
    check("no file may grow, a missing one", after=b"", output=FAULT, **limit)
    check("no file may grow, an empty one", before=b"", output=FAULT, **limit)
    check("no file may grow, a journal", before=LONGER, status=(7,), **limit)
    os.mkdir("disk")
    fill = 'mount -t tmpfs -o size=4k none disk && : > disk/j.dex && (cat /dev/zero > disk/fill 2> /dev/null; "$0" "$@"; echo $?; wc -c < disk/j.dex)'
    shell = ["unshare", "-Umr", "sh", "-c", fill, PROGRAM, *format_words("disk/j.dex")]
    try:
        done = subprocess.run(shell, capture_output=True, stdin=subprocess.DEVNULL, timeout=20)
    except (OSError, subprocess.TimeoutExpired):
        done = None
    if done is None or done.returncode != 0:
        print("skipped: a disk that is full (none can be mounted)")
    else:
        told("a disk that is full", [] if done.stdout == FAULT + b"6\n0\n" else [f"{done.stdout}"])


def synced():
    """The folder of a file that was made is synced before the first byte of it is written."""
    words = ["strace", "-f", "-y", "-e", "trace=openat,fsync,pwrite64", PROGRAM, *format_words("traced.dex")]
    try:
        lines = subprocess.run(words, capture_output=True, stdin=subprocess.DEVNULL, timeout=20, text=True).stderr.splitlines()
    except (OSError, subprocess.TimeoutExpired):
        lines = []
    made = [at for at, line in enumerate(lines) if "O_CREAT" in line and "traced.dex" in line and "= -1" not in line]
    put = [at for at, line in enumerate(lines) if "pwrite64" in line and "traced.dex" in line]
    if not made or not put:
        return print("skipped: the sync of a folder (no trace of the program)")
    folder = f"<{os.getcwd()}>)"
    told("a folder is synced", [] if any("fsync" in line and folder in line for line in lines[made[-1] : put[0]]) else ["it is not"])


def hung_up(words, text):
    """The status and the output of the program on a terminal whose other end says a text and hangs up, so that a read behind it fails."""
    other, own = pty.openpty()
    tty.setraw(own)
    one = subprocess.Popen([PROGRAM, *words], stdin=own, stdout=subprocess.PIPE)
    os.close(own)
    os.write(other, text)
    # (what was not read yet would be lost)
    while not int.from_bytes(fcntl.ioctl(other, termios.TIOCOUTQ, bytes(4)), "little") == 0:
        time.sleep(0.01)
    time.sleep(0.2)
    os.close(other)
    return one.wait(20), one.stdout.read()


def broken():
    """Standard input that fails at once or in mid-stream, a report with room for a part of it, and a journal that cannot be synced."""
    fault = b"FAULT SOURCE\n"
    for job in ("set", "text", "line"):
        got, printed = run(["check", job], "< .")
        told(f"check {job} of a folder", unlike(got, printed, (4,), fault))
        got, printed = hung_up(["check", job], b"\x05\x100")
        told(f"check {job} of a line that hangs up", unlike(got, printed, (4,), fault))
    limit = {"preexec_fn": lambda: resource.setrlimit(resource.RLIMIT_FSIZE, (3, 3)), "restore_signals": False}
    write("delivery", DELIVERY)
    got, _ = run(["check", "set"], "< delivery > report", **limit)
    told("a report with room for three bytes", unlike(got, content("report"), (5,), b"SET"))
    for number in (1, 2):
        words = ["strace", "-f", "-o", "/dev/null", "-e", f"inject=fsync,fdatasync:error=EIO:when={number}", PROGRAM, *format_words("unsynced.dex")]
        try:
            done = subprocess.run(words, capture_output=True, stdin=subprocess.DEVNULL, timeout=20)
        except (OSError, subprocess.TimeoutExpired):
            done = None
        if done is None or b"strace" in done.stderr:
            print("skipped: a sync that fails (no trace of the program)")
        else:
            told(f"a journal whose sync {number} fails", unlike(done.returncode, done.stdout, (6,), FAULT))
        if os.path.exists("unsynced.dex"):
            os.unlink("unsynced.dex")


def race():
    """Two formats of one name at once: one makes the journal, and what it made stands."""
    wrong = []
    for turn in range(200):
        both = [subprocess.Popen([PROGRAM, *format_words("race.dex", number)], stdout=subprocess.DEVNULL) for number in (1, 2)]
        statuses = [one.wait(20) for one in both]
        stands = content("race.dex")
        winner = {(0, 6): HEADER, (0, 7): HEADER, (6, 0): OTHER, (7, 0): OTHER}.get(tuple(statuses))
        if winner is None or stands != winner:
            wrong.append(f"turn {turn}: {statuses}, {stands}")
        os.unlink("race.dex")
    told("a race of two, 200 times", wrong[:3])


def killed():
    """A format that is killed: nothing, an empty file or a whole header stands, and the next format goes on from it."""
    wrong = []
    begun = time.monotonic()
    subprocess.run([PROGRAM, *format_words("killed.dex")], stdout=subprocess.DEVNULL)
    whole = time.monotonic() - begun
    os.unlink("killed.dex")
    for turn in range(200):
        one = subprocess.Popen([PROGRAM, *format_words("killed.dex")], stdout=subprocess.DEVNULL)
        time.sleep(random.random() * whole)
        one.kill()
        one.wait(20)
        left = content("killed.dex")
        got, _ = run(format_words("killed.dex", 2))
        wanted = (7, HEADER) if left else (0, OTHER)
        if left not in (None, b"", HEADER) or (got, content("killed.dex")) != wanted:
            wrong.append(f"turn {turn}: {left}, then status {got} and {content('killed.dex')}")
        os.unlink("killed.dex")
    told("killed within a format, 200 times", wrong[:3])


def end_words(role="handheld", port="/dev/null"):
    return [role, "end.dex", port]


def ends(name, words, stands=HEADER, redirect="", status=6, output=FAULT, **how):
    """One end on a journal, of which no byte changes."""
    write("end.dex", stands)
    os.chmod("end.dex", 0o666)
    got, printed = run(words, redirect, **how)
    wrong = []
    if got != status:
        wrong.append(f"status {got}")
    if output is not None and printed != output:
        wrong.append(f"printed {printed[:200]}")
    if content("end.dex") != stands:
        wrong.append("the journal changed")
    os.unlink("end.dex")
    told(name, wrong)


def ports():
    """Ends on ports that are none, and with an output that is none."""
    silent = b"SESSION SILENT\n"
    ends("an end that nobody answers", end_words(), status=8, output=silent)
    ends("an end on a port that is missing", end_words(port="missing"))
    told("a missing port is not made", [] if not os.path.exists("missing") else ["it is"])
    os.mkdir("a folder")
    ends("an end on a port that is a folder", end_words(port="a folder"))
    os.rmdir("a folder")
    write("a port", b"")
    for mode in (0o000, 0o444, 0o222):
        os.chmod("a port", mode)
        ends(f"an end on a port of mode {mode:o}", end_words(port="a port"), **rights)
    os.unlink("a port")
    os.symlink("end.dex", "another name")
    ends("an end on its journal by another name", end_words(port="another name"))
    os.unlink("another name")
    ends("an end whose port is its journal", end_words(port="end.dex"))
    ends("an end whose output is full", end_words(), redirect="> /dev/full", status=5, output=b"")
    ends("an end whose output is closed", end_words(), redirect=">&-", status=5, output=b"")


def main(parts):
    """Runs these checks in a folder of their own, which has the program, and prints how many passed."""
    program = os.path.abspath(sys.argv[1] if len(sys.argv) > 1 else "crates/dex/out/dex")
    with tempfile.TemporaryDirectory() as folder:
        shutil.copy(program, folder)
        os.rename(f"{folder}/{os.path.basename(program)}", f"{folder}/dex")
        os.chmod(f"{folder}/dex", 0o755)
        os.chmod(folder, 0o777)
        os.chdir(folder)
        if os.geteuid() == 0:
            nobody = pwd.getpwnam("nobody")
            rights.update(user=nobody.pw_uid, group=nobody.pw_gid, extra_groups=[])
        for part in parts:
            part()
        os.chdir("/")
    print(f"{passed} passed, {failed} failed")
    return 1 if failed else 0


if __name__ == "__main__":
    sys.exit(main((plain, closed, standard, others, held, denied, full, broken, synced, race, killed, shown, shows_at_once, longest, ports)))
