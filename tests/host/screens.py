#!/usr/bin/env python3
"""Types nights at a pseudo-terminal and compares the screen: screens.py [--store] BIN FILE..

A FILE.screen is a whole screen; of a FILE.md the indented blocks that begin with `$ ` are taken, one after the other. `$ COMMAND` is run by
sh in an empty folder of its own, with BIN first on the PATH, and what stands behind a prompt is typed there: `^D` and `^C` are the keys;
nothing is typed where a pipe gives the lines.
--store writes the screens as they came out. Prints a line for each that differs, and at the end 'N passed, M failed'.
"""
import difflib, os, pty, re, select, signal, sys, tempfile, time

PROMPT = re.compile(r"(?:(?:^|\n)(?:member \d+ )?> |\(y/n\) )$")
TYPED = re.compile(r"^(?:member \d+ )?> (.*)$|\(y/n\) (.*)$")
KEYS = {"^D": b"\x04", "^C": b"\x03"}
PATIENCE = 20


def piped(command):
    """Whether the program's lines come from a pipe: then nothing is typed, though it prompts."""
    return "|" in command


def run(command, typed, folder, status):
    """What stands on the screen after a command, and its status."""
    pid, screen = pty.fork()
    if pid == 0:
        os.chdir(folder)
        os.execvp("sh", ["sh", "-c", f"(exit {status}); {command}"])
    said, typed, last, mark = "", list(typed), time.time(), -1
    while True:
        ready, _, _ = select.select([screen], [], [], 0.2)
        if ready:
            try:
                new = os.read(screen, 65536)
            except OSError:
                new = b""
            if not new:
                break
            said, last = said + new.decode(errors="replace").replace("\r\n", "\n"), time.time()
        if PROMPT.search(said) and len(said) > mark and typed:
            word = typed.pop(0)
            said += "^D" if word == "^D" else ""  # the one key that no terminal shows
            mark = len(said)
            os.write(screen, KEYS.get(word, word.encode() + b"\n"))
        elif time.time() - last > (1 if PROMPT.search(said) and not typed and not piped(command) else PATIENCE):
            os.kill(pid, signal.SIGKILL)
    os.close(screen)
    status = os.waitstatus_to_exitcode(os.waitpid(pid, 0)[1])
    return said, status if status >= 0 else 128 - status


def replay(text, folder, status=0):
    """The screen as it comes out, for a screen as it is wanted."""
    commands, out = re.split(r"^\$ ", text, flags=re.M)[1:], ""
    for command in commands:
        first, _, rest = command.partition("\n")
        typed = [next(w for w in m.groups() if w is not None) for m in map(TYPED.search, rest.split("\n")) if m and not piped(first)]
        said, status = run(first, typed, folder, status)
        out += f"$ {first}\n{said}" + ("" if said.endswith("\n") or not said else "\n")
    return out, status


def blocks(text):
    """The indented blocks of a document that are screens: where each begins and ends."""
    for m in re.finditer(r"(?:^    .*\n(?:\n(?=    ))?)+", text, flags=re.M):
        if m.group().startswith("    $ "):
            yield m.span()


def dedent(block):
    return re.sub(r"^    ", "", block, flags=re.M)


def indent(block):
    return re.sub(r"^(?=.)", "    ", block, flags=re.M)


def play(path):
    """A file as it is and as it comes out."""
    want = open(path).read()
    with tempfile.TemporaryDirectory() as folder:
        if not path.endswith(".md"):
            return want, replay(want, folder)[0]
        got, at, status = "", 0, 0
        for begin, end in blocks(want):
            screen, status = replay(dedent(want[begin:end]), folder, status)
            got, at = got + want[at:begin] + indent(screen), end
        return want, got + want[at:]


def main():
    words = [w for w in sys.argv[1:] if w != "--store"]
    os.environ["PATH"] = os.path.abspath(words[0]) + ":" + os.environ["PATH"]
    failed = 0
    for path in words[1:]:
        want, got = play(path)
        if "--store" in sys.argv:
            open(path, "w").write(got)
        elif want != got or "$ " not in want:
            failed += 1
            print(f"screens: {path} differs:")
            print("\n".join(difflib.unified_diff(want.split("\n"), got.split("\n"), "wanted", "came", lineterm="", n=1)))
    print(f"{len(words) - 1 - failed} passed, {failed} failed")
    sys.exit(failed > 0)


main()
