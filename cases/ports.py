#!/usr/bin/env python3
"""Two ends on one cable: cases/ports.py PROGRAM [SECONDS [SEED]]

Runs `PROGRAM handheld` and `PROGRAM receiver` (crates/dex/out/dex where none is given) as two processes on two pseudo-terminals
that a relay joins. The relay can pull the cable, damage a byte, lose some, or kill an end, each at a byte of the session. After each
session a clean one follows; then both have settled each delivery, and what one journal holds as signed the other holds as taken. It says
what it saw, and stops after so many seconds (90), but not before 60 sessions.
Its last line is 'N passed, N failed'; its status is 1 where one failed.
"""
import os
import pty
import random
import select
import subprocess
import sys
import tempfile
import termios
import threading
import time
import tty

HANDHELD, RECEIVER = "HH00000001", "RR00000001"
LEAST_SESSIONS = 60
SIDE_BY_SIDE = 4
# A read of an idle port gives nothing after so many tenths of a second: that is a Quiet, of which thirty in a row end a session.
QUIET = 2


# ---- what the ends are told

def cents(value):
    return f"{value // 100}.{value % 100:02d}"


def route(rng):
    """Some drafts and counts: each delivery as it was sent, or with a line counted otherwise."""
    drafts, counts = [], []
    for number in range(1, rng.randint(1, 4) + 1):
        drafts.append(f"DRAFT {600000 + number} D 20240229 - - - -\nSIGN JONES\nTOLERANCE 1000000\n")
        counts.append(f"COUNT {600000 + number}\nSIGN SMITH\nCOUNTER NO\n")
        changed = rng.random() < 0.5
        for line in range(1, rng.randint(1, 12) + 1):
            quantity, cost = rng.randint(2, 40), cents(rng.randint(1, 2000))
            drafts.append(f"ITEM {line} {quantity} EA - {cost}\n")
            counts.append(f"ITEM {line} {quantity - (changed and line == 1)} {cost}\n")
        drafts.append("END\n")
        counts.append("END\n")
    return "".join(drafts), "".join(counts)


# ---- the cable

class Cable:
    """Two pseudo-terminals, and a relay between them with one mishap at a byte of what it has passed on."""

    def __init__(self, mishap, at):
        self.ends = [self.port(), self.port()]
        self.mishap, self.at = mishap, at
        self.passed = 0
        self.ended = False
        self.befell = False
        self.victim = None
        self.thread = threading.Thread(target=self.relay, daemon=True)

    @staticmethod
    def port():
        relay_side, end_side = pty.openpty()
        tty.setraw(end_side)
        modes = termios.tcgetattr(end_side)
        modes[6][termios.VMIN], modes[6][termios.VTIME] = 0, QUIET
        termios.tcsetattr(end_side, termios.TCSANOW, modes)
        os.set_blocking(relay_side, False)
        return relay_side, end_side, os.ttyname(end_side)

    def relay(self):
        masters = [self.ends[0][0], self.ends[1][0]]
        while not self.ended:
            ready, _, _ = select.select(masters, [], [], 0.05)
            for master in ready:
                other = masters[1 - masters.index(master)]
                try:
                    piece = os.read(master, 512)
                except OSError:
                    continue
                self.pass_on(other, piece)

    def pass_on(self, other, piece):
        """Bytes from one end to the other, with what befalls them."""
        first, last = self.passed, self.passed + len(piece)
        self.passed = last
        if self.mishap and not self.befell and first <= self.at < last:
            self.befell = True
            piece = self.befall(piece, self.at - first)
        if self.mishap == "pulled" and self.befell:
            piece = b""
        try:
            os.write(other, piece)
        except OSError:
            pass

    def befall(self, piece, place):
        if self.mishap == "damaged":
            return piece[:place] + bytes([piece[place] ^ 0x15]) + piece[place + 1:]
        if self.mishap == "lost":
            return piece[:place]
        if self.mishap == "killed" and self.victim is not None:
            self.victim.kill()
        return piece[:place] if self.mishap == "pulled" else piece

    def close(self):
        self.ended = True
        self.thread.join()
        for relay_side, end_side, _ in self.ends:
            os.close(relay_side)
            os.close(end_side)


# ---- sessions

def run(program, words, stdin=b""):
    done = subprocess.run([program, *words], input=stdin, capture_output=True, timeout=60)
    return done.returncode, done.stdout


class Pair:
    """The two journals of a supplier and a store, and what each is told."""

    def __init__(self, program, folder, rng):
        self.program, self.rng = program, rng
        self.journals = [os.path.join(folder, name) for name in ("handheld", "receiver")]
        self.inputs = [text.encode() for text in route(rng)]
        self.made = [run(program, ["format", "handheld", HANDHELD, RECEIVER, self.journals[0]]),
                     run(program, ["format", "receiver", RECEIVER, HANDHELD, self.journals[1]])]

    def session(self, mishap):
        """One session; the status and the output of each end, and whether the mishap befell it."""
        cable = Cable(mishap, self.rng.randint(0, 1500))
        jobs = []
        for role, end, journal, text in zip(("handheld", "receiver"), cable.ends, self.journals, self.inputs):
            job = subprocess.Popen([self.program, role, journal, end[2]], stdin=subprocess.PIPE, stdout=subprocess.PIPE, stderr=subprocess.PIPE)
            job.stdin.write(text)
            job.stdin.close()
            job.stdin = None
            jobs.append(job)
        cable.victim = self.rng.choice(jobs)
        cable.thread.start()
        outputs = [job.communicate(timeout=90) for job in jobs]
        cable.close()
        return [(job.returncode, out, err) for job, (out, err) in zip(jobs, outputs)], cable.befell

    def entries(self, which):
        """What a journal holds, as `show` tells it: kind and the words of the set of each entry."""
        status, shown = run(self.program, ["show", self.journals[which]])
        rows = [line.split() for line in shown.decode().splitlines()[1:-1]]
        return status, sorted((row[1], *row[2:]) for row in rows)


def finals(output):
    """The records of a report: each FINAL line with its ITEM lines."""
    return [line for line in output.decode().splitlines() if line.split()[0] in ("FINAL", "ITEM", "OPEN")]


def wrong_after(mishap, ended):
    """What is wrong with how a session ended."""
    wrong = []
    for role, (status, _, err) in zip(("handheld", "receiver"), ended):
        allowed = (0, 1, 8, -9) if mishap == "killed" else (0, 1, 8)
        if status not in (allowed if mishap else (0,)):
            wrong.append(f"{role} ended with status {status}")
        if err:
            wrong.append(f"{role} wrote {err[:80]!r} on standard error")
    return wrong


def wrong_between(pair, ended):
    """What is wrong with two ends after a clean session."""
    wrong = []
    if sorted(finals(ended[0][1])) != sorted(finals(ended[1][1])):
        wrong.append("the reports differ")
    (_, one), (_, other) = pair.entries(0), pair.entries(1)
    turned = {"SIGNED": "TOOK", "TOOK": "SIGNED"}
    if one != sorted((turned[kind], *rest) for kind, *rest in other):
        wrong.append("the journals differ")
    return wrong


class Tally:
    def __init__(self):
        self.lock = threading.Lock()
        self.passed = self.failed = self.sessions = 0
        self.seen = {}

    def add(self, mishap, ended, befell, wrong):
        with self.lock:
            self.sessions += 1
            name = (mishap or "clean") if befell or not mishap else "clean"
            kinds = self.seen.setdefault(name, {})
            how = " ".join(str(status) for status, _, _ in ended)
            kinds[how] = kinds.get(how, 0) + 1
            if wrong:
                self.failed += 1
                print(f"session {self.sessions}, {name}: {'; '.join(wrong)}", flush=True)
            else:
                self.passed += 1


def play(program, folder, rng, until, tally):
    """Pairs one after another, each with some mishaps and then a clean session."""
    count = 0
    while time.time() < until or tally.sessions < LEAST_SESSIONS:
        count += 1
        place = os.path.join(folder, f"{count}")
        os.mkdir(place)
        pair = Pair(program, place, rng)
        if pair.made != [(0, b"FORMATTED\n")] * 2:
            tally.add(None, [(9, b"", b"")] * 2, False, [f"format said {pair.made}"])
            return
        for mishap in rng.sample(("pulled", "damaged", "lost", "killed"), rng.randint(0, 2)):
            ended, befell = pair.session(mishap)
            tally.add(mishap, ended, befell, wrong_after(mishap, ended))
        ended, _ = pair.session(None)
        tally.add(None, ended, False, wrong_after(None, ended) + wrong_between(pair, ended))


def main():
    program = os.path.abspath(sys.argv[1] if len(sys.argv) > 1 else "crates/dex/out/dex")
    seconds = float(sys.argv[2]) if len(sys.argv) > 2 else 90
    seed = int(sys.argv[3]) if len(sys.argv) > 3 else random.randrange(1 << 30)
    tally, until = Tally(), time.time() + seconds
    with tempfile.TemporaryDirectory() as folder:
        players = []
        for player in range(SIDE_BY_SIDE):
            place = os.path.join(folder, f"player{player}")
            os.mkdir(place)
            players.append(threading.Thread(target=play, args=(program, place, random.Random(seed + player), until, tally)))
        for player in players:
            player.start()
        for player in players:
            player.join()
    for name, kinds in sorted(tally.seen.items()):
        print(f"{name}: " + ", ".join(f"{count} ended {how}" for how, count in sorted(kinds.items())))
    print(f"{tally.sessions} sessions, seed {seed}")
    print(f"{tally.passed} passed, {tally.failed} failed")
    return 1 if tally.failed else 0


if __name__ == "__main__":
    sys.exit(main())
