#!/usr/bin/env python3
"""Header, example, host and docs/BYTES.md say the same: header.py ARCHIVE FOLDER. FOLDER gets the programs that it builds, and what they
print. Ends in 'N passed, M failed'."""
import glob, hashlib, re, subprocess, sys

ARCHIVE, FOLDER = sys.argv[1:3]
STRICT = ["-std=c99", "-Wall", "-Wextra", "-Wpedantic", "-Werror", "-I", "include"]
passed = failed = 0


def check(right, what):
    global passed, failed
    passed, failed = passed + bool(right), failed + (not right)
    if not right:
        print(f"header: {what}")


def read(path):
    with open(path) as file:
        return file.read()


def output(source, name):
    """What a C program prints, built on the archive."""
    subprocess.run(["gcc", *STRICT, source, ARCHIVE, "-o", f"{FOLDER}/{name}"], check=True)
    with open(f"{FOLDER}/{name}.out", "wb") as file:
        subprocess.run([f"{FOLDER}/{name}"], stdout=file, check=True)
    return read(f"{FOLDER}/{name}.out")


header = read("include/snarevapor.h")


def commented(begin, end):
    """The indented part of the header's comment between two sentences."""
    part = header[header.index(begin):]
    part = part[part.index("\n"):part.index(end)]
    text = "".join(line[7:] + "\n" for line in part.split("\n") if line.startswith(" *     ") or line == " *")
    return text.strip("\n") + "\n"


# The header's comment shows examples/small.c, and what it prints.
check(commented("This is examples/small.c:", " * Installed by") == read("examples/small.c"), "its comment does not show examples/small.c")
check(commented("It prints", " * WHAT YOU OWE") == output("examples/small.c", "small"), "its comment does not show what the example prints")

# The header's numbers, by the compiler.
names = re.findall(r"^#define (SNAREVAPOR_\w+) +\S", header, re.M)
codes = re.findall(r"^    (SNAREVAPOR_\w+) = \d+", header, re.M)
with open(f"{FOLDER}/names.c", "w") as file:
    file.write('#include "snarevapor.h"\n#include <stdio.h>\nint main(void) {\n')
    file.writelines(f'    printf("{name} %lld\\n", (long long){name});\n' for name in names + codes)
    file.write('    for (unsigned code = 0; code < 20; code++) printf("word-%u %s\\n", code, snarevapor_word(code));\n')
    file.write('    for (unsigned v = 0; v < 20; v++) printf("verdict-%u %s\\n", v, snarevapor_verdict_word(v));\n    return 0;\n}\n')
said = dict(line.split(" ", 1) for line in output(f"{FOLDER}/names.c", "names").splitlines())
numbers = {name: int(said[name]) for name in names + codes}

# Each code and each verdict has its own words, and nothing else has.
codes_end = [("word", "no code of this house", "SNAREVAPOR_OPENING"), ("verdict", "no verdict of this house", "SNAREVAPOR_DEADLOCKED")]
for kind, stranger, last in codes_end:
    known = [said[f"{kind}-{code}"] for code in range(20) if said[f"{kind}-{code}"] != stranger]
    check(len(known) == len(set(known)) == numbers[last] + 1, f"{len(known)} {kind}s for {numbers[last] + 1}")

# The host repeats no number and no word of the header.
for path in sorted(glob.glob("host/*.[ch]")):
    text = read(path)
    for name in names:
        if numbers[name] >= 64:
            check(not re.search(rf"\b{numbers[name]}\b|\b{numbers[name]:,}\b", text), f"{path} repeats {name}")
    for key in said:
        if key.startswith(("word-", "verdict-")):
            check(f'"{said[key]}' not in text, f"{path} repeats the words '{said[key]}'")

# What a host was built on changes only with the version: all numbers of the header, as each version has them, summed up.
SUMS = {1: "935e428f2b91c303"}
code = re.sub(r"/\*.*?\*/", "", header, flags=re.S)
every = sorted(set(re.findall(r"\bSNAREVAPOR_[A-Z_]+\b", code)) - {"SNAREVAPOR_H", "SNAREVAPOR_VERSION"})
with open(f"{FOLDER}/every.c", "w") as file:
    file.write('#include "snarevapor.h"\n#include <stdio.h>\nint main(void) {\n')
    file.writelines(f'    printf("{name} %lld\\n", (long long){name});\n' for name in every)
    file.write("    return 0;\n}\n")
version, sum_now = numbers["SNAREVAPOR_VERSION"], hashlib.sha256(output(f"{FOLDER}/every.c", "every").encode()).hexdigest()[:16]
check(SUMS.get(version) == sum_now, f"the header's numbers are no longer those of version {version}: a new version has the sum {sum_now}")

# docs/BYTES.md: its table has each size and place of the header, with the number that it has there.
document = read("docs/BYTES.md")
rows = dict(re.findall(r"^\| `(SNAREVAPOR_\w+)` \| ([\d,]+) \|", document, re.M))
for name in names:
    if re.search(r"_AT$|_BYTES$|_ANSWER$|_UNIT$|_TABLES$", name):
        there = rows.get(name, "none").replace(",", "")
        check(there == str(numbers[name]), f"docs/BYTES.md has {there} for {name}, which is {numbers[name]}")
for name in rows:
    check(name in numbers, f"docs/BYTES.md has {name}, and the header has not")

# Its example: the bytes that it shows are those that cross, and all others of the tables are 0.
crossed = {name: bytes.fromhex(text) for name, text in (line.split(" ") for line in output("tests/host/bytes.c", "bytes").splitlines())}


def shown(name):
    """The bytes on the line of that name, and on those below it without one."""
    at = re.search(rf"^    {name} .*\n(?:     .*\n)*", document, re.M).group()
    return bytes.fromhex("".join(line[14:64] for line in at.splitlines()))


for name in ["balances", "lines", "sum", "counts", "told"]:
    check(shown(name) == crossed[name], f"docs/BYTES.md shows other bytes for {name}")
for name, columns in [("before", slice(14, 38)), ("after", slice(41, 65))]:
    tables = bytearray(len(crossed[name]))
    for line in re.findall(r"^    \d[\d,]* .*$", document, re.M):
        begin, bytes_there = int(line.split()[0].replace(",", "")), bytes.fromhex(line[columns])
        tables[begin:begin + len(bytes_there)] = bytes_there
    check(tables == crossed[name], f"docs/BYTES.md shows other tables {name} the resolution")

print(f"{passed} passed, {failed} failed")
sys.exit(failed > 0)
