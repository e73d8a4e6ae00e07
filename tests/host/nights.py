#!/usr/bin/env python3
"""The night's file under crashes, full disks and foreign files: nights.py FLOOR CHECKED NIGHTSHEET STOP.SO [SEEDS [SEED]]

FLOOR is the floor program, CHECKED the same with the sanitizers, NIGHTSHEET the proved program, which says what a file's tables are, and
STOP.SO what tests/host/stop.c says. Ends in 'N passed, M failed'.
"""
import glob, os, pty, random, re, resource, select, signal, subprocess, sys, tempfile, time

FLOOR, CHECKED, NIGHTSHEET, STOP = (os.path.abspath(w) for w in sys.argv[1:5])
SEEDS = int(sys.argv[5]) if len(sys.argv) > 5 else 100
SEED = int(sys.argv[6]) if len(sys.argv) > 6 else 1
PROMPT = re.compile(rb"(?:(?:^|\n)(?:member \d+ )?> |\(y/n\) )$")
passed = failed = 0


def check(right, what):
    global passed, failed
    passed, failed = passed + bool(right), failed + (not right)
    if not right:
        print(f"nights: {what}")


def read(path):
    with open(path, "rb") as file:
        return file.read()


def write(path, text):
    with open(path, "wb") as file:
        file.write(text if isinstance(text, bytes) else text.encode())


# ---- What a file's tables are: by nightsheet, and by the floor


def sheet_of(text):
    return subprocess.run([NIGHTSHEET], input=text, stdout=subprocess.PIPE, check=True).stdout.decode().split("\n")[:-1]


def wanted(text):
    """By nightsheet: (member, balance, payments waiting) of each, how many lines are refused, and whether the night has ended."""
    sheet = sheet_of(text)
    ended = sheet[-1].startswith("money")
    if not ended and not sheet[-1].startswith("0\t"):
        return None, 1, False
    if not ended:
        sheet = sheet_of(text + (b"\n" if text and not text.endswith(b"\n") else b"") + b"end\n")
    if not sheet[-1].startswith("money"):
        return None, 0, False
    rows = [tuple(map(int, line.split("\t")[1:])) for line in sheet if line.startswith("balance")]
    return rows, sum("\trefused\t" in line for line in sheet), ended


ROW = re.compile(r"^ *(\d+) +(-?[\d,]+\.\d\d) +[\d,]+\.\d\d +(\d+) ", re.M)
TOLD = re.compile(r": (\d+) lines?, (\d+) refused; (.*)$", re.M)


def rows_of(said):
    return [(int(m[0]), int(m[1].replace(",", "").replace(".", "")), int(m[2])) for m in ROW.findall(said)] or None


def same_tables(path, text, what, floor=None):
    """The floor replays the file to the tables that nightsheet has for the text."""
    rows, refused, ended = wanted(text)
    done = subprocess.run([floor or FLOOR, path], stdin=subprocess.DEVNULL, stdout=subprocess.PIPE, stderr=subprocess.STDOUT)
    said = done.stdout.decode(errors="replace")
    told = TOLD.search(said)
    right = rows_of(said) == rows and done.returncode == (0 if ended else 1)
    if rows:
        right = right and told and int(told[2]) == refused and ("has ended" in told[3]) == ended
    check(right, f"{what}: the floor has other tables than nightsheet:\n{said}")


def foreign_files(folder):
    """Stored nights and nights made up from seeds, most of them damaged, are replayed as nightsheet reads them."""
    here = os.path.dirname(os.path.abspath(__file__))
    for day in sorted(glob.glob(here + "/../days/*.day")) + glob.glob(here + "/../../examples/*.day"):
        write(folder + "/copy", read(day))
        same_tables(folder + "/copy", read(day), day, CHECKED)
    for seed in range(SEED, SEED + 2 * SEEDS):
        dice = random.Random(seed)
        text = damaged(dice, "".join(line + "\n" for line in made_up(dice, 30)).encode())
        write(folder + "/copy", text)
        same_tables(folder + "/copy", text, f"damaged night of seed {seed}")


def forms(folder):
    """A line that is not quite in the day file's form is passed over, as nightsheet does."""
    begin = "house\t1\t2\nmember\t1\t500\t0\nmember\t2\t0\t100\npay\t1\t1\t2\t5\n"
    for line in ["deposit\t1\t7", "deposit 1 7", "deposit\t1 7", "deposit\t\t1\t7", "\tdeposit\t1\t7", "deposit\t1\t7\t", "deposit\t1\t7 ",
                 "deposit\t1\t7\r", "deposit\t1\t07", "deposit\t1\t+7", "deposit\t1\t-7", "deposit\t1", "deposit\t1\t7\t7",
                 "Deposit\t1\t7", "pay\t1\t2\t7", "pay\t1\t2\t2\t7", "pay\t1\t2\t2\t7\t", "release\t1", "release 1", "release\t01",
                 "group\t1\t0", "group\t1\t0\t", "group 1 0", "group", "resolve", "resolve\t", " resolve", "resolve ", "show", "show\t1",
                 "help", "end\t", " end", "END", "house\t1\t2", "member\t1\t5\t0", "", " ", "\t", "\0", "res\0olve", "resolve\0"]:
        text = (begin + line + "\ndeposit\t2\t9\n").encode()
        write(folder + "/form", text)
        same_tables(folder + "/form", text, f"line {line!r}", CHECKED)


def damaged(dice, text):
    """A few bytes changed, left out, doubled or put in; often the last line end is gone."""
    text = bytearray(text)
    for _ in range(dice.choice([0, 1, 3])):
        at = dice.randrange(20, len(text))
        change = dice.randrange(4)
        if change == 0:
            text[at] = dice.choice(b"0123456789-\t \n\r\0xend")
        elif change == 1:
            del text[at]
        elif change == 2:
            text[at:at] = text[at:at + 1]
        else:
            text[at:at] = dice.choice([b"\t", b"\n", b"0", b"9" * 18, b" ", b"\nend\n", b"\nhouse\t1\t2\n", b"\n\n"])
    if dice.random() < 0.3 and text[-1:] == b"\n":
        del text[-1]
    return bytes(text).replace(b"\n\0", b"\nx")  # what a crash of the floor leaves is tried elsewhere


def garbage(folder):
    """Bytes of any kind, typed or in the file: the floor ends with one of its own statuses, and says nothing on standard error."""
    words = [b"house", b"member", b"pay", b"deposit", b"release", b"group", b"resolve", b"show", b"help", b"end", b"1", b"2", b"3", b"0", b"-5",
             b"300", b"65536", b"1000000000000", b"999999999999999999", b"9999999999999999999", b"x", b"\0", b"\xff" * 300, b"y", b"n"]
    for seed in range(SEED, SEED + SEEDS // 2):
        dice = random.Random(seed)
        opening = "".join(line + "\n" for line in made_up(dice, 5)).encode() if dice.random() < 0.8 else b""
        text = opening + b"".join(dice.choice(words) + dice.choice(b"\t \t\t\n\n\r\0".decode()).encode() for _ in range(200))
        path = folder + "/garbage.day"
        write(path, text if dice.random() < 0.3 else b"")
        for words_given in [[path], ["--ask"], []]:
            done = subprocess.run([CHECKED, *words_given], input=text, stdout=subprocess.PIPE, stderr=subprocess.PIPE)
            check(done.returncode in [0, 1] and done.stderr == b"", f"garbage of seed {seed}: status {done.returncode}, {done.stderr!r}")
        if read(path):
            same_tables(path, read(path), f"garbage of seed {seed}", CHECKED)


# ---- Nights made up from a seed


def made_up(dice, length):
    """Lines of a day file: an opening, then calls of which some are refused."""
    count = dice.randrange(2, 6)
    lines, last = [f"house\t1\t{count}"], [0] * (count + 1)
    for m in range(1, count + 1):
        line = dice.choice([0, 0, 50, 1000])
        lines.append(f"member\t{m}\t{dice.randrange(-line, 300)}\t{line}")
    return lines + [one_line(dice, count, last) for _ in range(length)]


def one_line(dice, count, last):
    kind, m = dice.choice("pppppppdrrgvv"), dice.randrange(1, count + 1)
    if kind == "p":
        payee, amount = dice.randrange(0, count + 2), dice.choice([0, 5, 60, 200, 200, 300, 10**12, 10**12 + 1])
        number = last[m] + dice.choice([1, 1, 1, 1, 2])
        last[m] += 1 <= payee <= count and payee != m and 1 <= amount <= 10**12 and number == last[m] + 1
        return f"pay\t{m}\t{number}\t{payee}\t{amount}"
    if kind == "d":
        return f"deposit\t{m}\t{dice.choice([0, 1, 70, 500])}"
    if kind == "r":
        return f"release\t{m + (dice.random() < 0.1)}"
    if kind == "g":
        return "group" + "".join(f"\t{dice.choice([0, 0, 1, 2])}" for _ in range(count - (dice.random() < 0.1)))
    return "resolve"


# ---- A floor at a terminal


class Terminal:
    """A floor at a pseudo-terminal, and what it said."""

    def __init__(self, floor, *words, hangup=signal.SIG_DFL, **environment):
        self.said, self.mark = b"", -1
        self.pid, self.screen = pty.fork()
        if self.pid == 0:
            signal.signal(signal.SIGHUP, hangup)
            os.environ.update(environment)
            os.execv(floor, ["floor", *words])

    def read(self):
        """Reads what comes: False at the end. A floor that says nothing for long is killed."""
        if not select.select([self.screen], [], [], 20)[0]:
            self.kill()
        try:
            new = os.read(self.screen, 65536)
        except OSError:
            new = b""
        self.said = (self.said + new).replace(b"\r\n", b"\n")
        return new != b""

    def prompt(self):
        """The next prompt, once it is there; None if the floor is gone."""
        while True:
            at = PROMPT.search(self.said)
            if at and len(self.said) > self.mark:
                return at.group().decode().strip()
            if not self.read():
                return None

    def type(self, text):
        self.mark = len(self.said)
        os.write(self.screen, text.encode() + b"\n")

    def kill(self):
        os.kill(self.pid, signal.SIGKILL)

    def close(self):
        """Everything that was said, and the status."""
        while self.read():
            pass
        os.close(self.screen)
        return self.said.decode(errors="replace"), os.waitstatus_to_exitcode(os.waitpid(self.pid, 0)[1])


def sit(terminal, lines, start, kill_at=None, pause=0):
    """Types the lines from `start` on, and y to each question; kills the floor after so many answers. How many lines were answered then,
    what was said, and the status."""
    at, turn = start, 0
    while (prompt := terminal.prompt()) and (at < len(lines) or prompt.endswith("(y/n)")):
        if prompt.endswith("(y/n)"):
            terminal.type("y")
        else:
            terminal.type(lines[at].replace("\t", " "))
            at += 1
        if turn == kill_at:
            time.sleep(pause)
            terminal.kill()
            break
        turn += 1
    if prompt:
        terminal.kill()
    said, status = terminal.close()
    answered = start + max(0, len(re.findall(r"^(?:member \d+ )?> ", said, re.M)) - 1)
    return (len(lines) if "the night has ended;" in said else answered), said, status


def in_file(path, lines, answered, what, most=1):
    """The file holds the lines that were answered, or so many more, and perhaps what a crash left of another. How many it holds."""
    text = read(path) if os.path.exists(path) else b""
    begin = text.rfind(b"\n", 0, max(0, len(text) - 1)) + 1
    whole = text[:begin] if text[begin:begin + 1] == b"\0" else text
    for k in range(answered, min(answered + most, len(lines)) + 1):
        if whole == "".join(line + "\n" for line in lines[:k]).encode():
            check(wanted(text)[0] == wanted(whole)[0], f"{what}: nightsheet takes what a crash left for a line")
            return k
    check(False, f"{what}: {answered} lines were answered, and the file has {whole!r}")
    return None


# ---- Crashes


def killed(folder, seed):
    """A night that is killed at random moments, and goes on each time."""
    dice = random.Random(seed)
    path, lines, k = folder + f"/{seed}.day", made_up(dice, 10) + ["end"], 0
    while k is not None and k < len(lines):
        rest = dice.randrange(0, len(lines) - k + 4)
        floor = dice.choice([FLOOR, FLOOR, CHECKED])
        kill_at = rest if dice.random() < 0.8 else None
        answered, said, _ = sit(Terminal(floor, path), lines, k, kill_at, dice.choice([0, 0, 0.0003, 0.001, 0.002, 0.005]))
        what = f"killed night of seed {seed}"
        first = re.split(r"^(?:member \d+ )?> ", said, maxsplit=1, flags=re.M)
        if len(first) > 1:
            check(rows_of(first[0]) == wanted("".join(l + "\n" for l in lines[:k]).encode())[0], f"{what}: the tables differ:\n{said}")
        k = in_file(path, lines, answered, what)
    if k:
        check(sheet_of(read(path)) == sheet_of("".join(l + "\n" for l in lines).encode()), f"killed night of seed {seed}: other sheet")


STOPPED = ["house\t1\t2", "member\t1\t500\t0", "member\t2\t0\t100", "pay\t1\t1\t2\t400", "pay\t2\t1\t1\t3000", "release\t1",
           "pay\t1\t2\t2\t2600", "group\t1\t0", "deposit\t1\t12", "resolve", "end"]
ANSWER = re.compile(r"^(?:queued|released|booked|deposited|refused|nothing was booked)\b", re.M)


def synced(folder):
    """The folder is synced once; then each line is written in two steps, its first byte last, and synced after each."""
    sit(Terminal(FLOOR, folder + "/synced.day", LD_PRELOAD=STOP, STOP_LOG=folder + "/log"), STOPPED, 0)
    log = read(folder + "/log").decode()
    check(log == "s" + "wsws" * len(STOPPED), f"writes and syncs were {log}")


def stopped(folder):
    """A night that is stopped before, in the middle of and behind each write to its file, or whose writes fail from one on."""
    lines = STOPPED
    for how in ["before", "half", "after", "fail", "dead"]:
        for at in range(1, 1000):
            path, what = f"{folder}/{how}-{at}.day", f"stopped {how} at write {at}"
            answered, said, status = sit(Terminal(FLOOR, path, LD_PRELOAD=STOP, STOP_AT=str(at), STOP_HOW=how), lines, 0)
            if status == 0:
                break
            check(status == (2 if how in ["fail", "dead"] else -signal.SIGKILL), f"{what}: status {status}")
            check(len(ANSWER.findall(said)) == max(0, answered - 3), f"{what}: something was answered that was not written:\n{said}")
            k = in_file(path, lines, answered, what, 0 if how == "fail" else 1)
            if k is not None:
                answered, said, status = sit(Terminal(FLOOR, path), lines, k)
                check(status == 0 and read(path) == "".join(l + "\n" for l in lines).encode(), f"{what}: it does not go on:\n{said}")
        check(at > 3 * len(lines), f"stopped {how}: only {at} writes")


def stopped_while_mending(folder):
    """An opening that is refused and typed again, stopped at each write: it can always be finished, and then holds what was typed."""
    lines = ["house\t1\t3", "member\t1\t10\t0", "member\t2\t0\t0", "member\t3\t7\t0", "end"]
    for how in ["before", "half", "after"]:
        for at in range(1, 1000):
            path, what = f"{folder}/mending-{how}-{at}.day", f"mended opening stopped {how} at write {at}"
            typed = lines[:2] + ["member 2 -1 0"] + lines[3:4] + lines[2:3] + lines[4:]
            _, _, status = sit(Terminal(FLOOR, path, LD_PRELOAD=STOP, STOP_AT=str(at), STOP_HOW=how), typed, 0)
            if status == 0:
                break
            finish(path)
            check(read(path) == "".join(l + "\n" for l in lines).encode(), f"{what}: in the end the file has {read(path)!r}")
        check(at > 20, f"mended opening stopped {how}: only {at} writes")


def finish(path):
    """Types what the prompts ask for."""
    terminal = Terminal(FLOOR, path)
    while prompt := terminal.prompt():
        member = re.search(r"member (\d)", prompt)
        if prompt.endswith("(y/n)"):
            terminal.type("y")
        elif member:
            terminal.type(["", "member 1 10 0", "member 2 0 0", "member 3 7 0"][int(member[1])])
        else:
            terminal.type("house 1 3" if not read(path) else "end")
    terminal.close()


# ---- Files that cannot grow, that are in use, that are full


def cannot_grow(folder):
    """A file that may have so many bytes and no more: whole lines stand there, and nothing was booked for the one that had no room."""
    lines = ["house\t1\t1", "member\t1\t5\t0"] + ["deposit\t1\t10"] * 6
    for most in range(0, 90):
        path = f"{folder}/short-{most}.day"
        limit = lambda: resource.setrlimit(resource.RLIMIT_FSIZE, (most, most))
        done = subprocess.run([CHECKED if most % 10 == 0 else FLOOR, path], input="\n".join(lines + [""]).encode(), stdout=subprocess.PIPE,
                              stderr=subprocess.PIPE, preexec_fn=limit)
        stored = read(path).decode().count("\n")
        check(done.returncode == 2 and b"nothing was booked" in done.stderr, f"at most {most} bytes: {done}")
        check(read(path).decode() == "".join(l + "\n" for l in lines[:stored]), f"at most {most} bytes: the file has {read(path)!r}")
        check(done.stdout.count(b"deposited") == max(0, stored - 2), f"at most {most} bytes: {done}")


def in_use(folder):
    path = folder + "/in-use.day"
    terminal = Terminal(CHECKED, path)
    terminal.prompt()
    other = subprocess.run([CHECKED, path], input=b"house 1 1\nmember 1 5 0\n", stdout=subprocess.PIPE, stderr=subprocess.PIPE)
    check(other.returncode == 2 and b"another floor" in other.stderr and other.stdout == b"", f"a second floor: {other}")
    check(read(path) == b"", "a second floor wrote into a file in use")
    terminal.kill()
    terminal.close()
    other = subprocess.run([FLOOR, path], input=b"house 1 1\nmember 1 5 0\nend\n", stdout=subprocess.PIPE)
    check(other.returncode == 0, "a floor that was killed still holds its file")


def changed(folder):
    """A file that somebody else writes to, or removes, in the middle of a night: nothing more is booked."""
    path = folder + "/changed.day"
    for change in ["echo hello >>", "rm", ": >", "sed -i s/5/6/"]:
        for lines, typed in [("house\t1\t1\nmember\t1\t5\t0\n", "deposit 1 7"), ("house\t1\t2\nmember\t1\t5\t0\n", "member 1 7 0")]:
            write(path, lines)
            terminal = Terminal(CHECKED, path)
            terminal.prompt()
            subprocess.run(["sh", "-c", f"{change} {path}"], check=True)
            before = read(path) if os.path.exists(path) else None
            terminal.type(typed)
            said, status = terminal.close()
            right = status == 2 and "deposited" not in said and "somebody else" in said
            check(right, f"after {change} the floor says {said}, status {status}")
            check((read(path) if os.path.exists(path) else None) == before, f"after {change} the floor still writes")


def lost_connection(folder):
    """The terminal goes away in the middle of a line, also where that does not end the floor at once: it ends, and the file is as it was."""
    for hangup in [signal.SIG_DFL, signal.SIG_IGN]:
        path = folder + "/connection.day"
        write(path, "house\t1\t1\nmember\t1\t5\t0\n")
        terminal = Terminal(CHECKED, path, hangup=hangup)
        terminal.prompt()
        os.write(terminal.screen, b"deposit 1 7\x04")  # Ctrl-D hands over what was typed so far
        time.sleep(0.1)
        os.close(terminal.screen)
        deadline = time.time() + 10
        while (done := os.waitpid(terminal.pid, os.WNOHANG)) == (0, 0) and time.time() < deadline:
            time.sleep(0.01)
        if done == (0, 0):
            terminal.kill()
            os.waitpid(terminal.pid, 0)
        check(done != (0, 0), "a floor without a terminal does not end")
        check(read(path) == b"house\t1\t1\nmember\t1\t5\t0\n", f"a floor without a terminal wrote {read(path)!r}")


def million(folder):
    """999,999 lines have room for the end alone, a million for nothing."""
    path, begin = folder + "/million.day", b"house\t1\t1\nmember\t1\t5\t0\n"
    for more, status, added in [(999996, 1, b"deposit\t1\t1\n"), (999997, 0, b"end\n"), (999998, 1, b""), (999999, 1, b"")]:
        text = begin + b"x\n" * more
        write(path, text)
        done = subprocess.run([FLOOR, path], input=b"deposit 1 1\nend\n"[:12 if more == 999996 else None], stdout=subprocess.PIPE)
        check(done.returncode == status and read(path) == text + added, f"{more + 2} lines: {done}")
    check(sheet_of(begin + b"x\n" * 999997 + b"end\n")[-1] == "money\t5", "a million lines are no whole night")


def lost_screen(folder):
    path = folder + "/lost.day"
    with open("/dev/full", "wb") as full:
        done = subprocess.run([CHECKED, path], input=b"house 1 1\nmember 1 5 0\nend\n", stdout=full, stderr=subprocess.PIPE)
    check(done.returncode == 2 and read(path) == b"", f"a screen that takes nothing: {done}")


def main():
    with tempfile.TemporaryDirectory() as folder:
        foreign_files(folder)
        forms(folder)
        for seed in range(SEED, SEED + SEEDS):
            killed(folder, seed)
        for test in [garbage, synced, stopped, stopped_while_mending, cannot_grow, in_use, changed, lost_connection, million, lost_screen]:
            test(folder)
    print(f"{passed} passed, {failed} failed")
    sys.exit(failed > 0)


main()
