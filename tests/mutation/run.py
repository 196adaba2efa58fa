#!/usr/bin/env python3
"""Wrong programs and wrong definitions by the hundred, each of which the prover has to refuse. Run by hand from the repository's root, once
`rt all check` has proved everything:

    python3 tests/mutation/run.py [--each N] [--seed S] [CRATE..]

Each edit changes one operand of one line of a function's body, or of a definition in specs/, and keeps the shape. N edits (1) are drawn for each
function and each file of definitions. An edit is tried over the incremental check of its crate; a definition that its own crate does not miss is
then tried on the crates that use it. The table says of each edit: refused (and by whom), no program (the front end rejects it), or SURVIVED.
The status is 0 only if none survived."""
import os
import random
import re
import subprocess
import sys
import tempfile

# what stands for what in a body; the first that is found at the drawn place is taken
CODE = [
    (r" < ", " <= "), (r" <= ", " < "), (r" == ", " != "), (r" != ", " == "), (r" \+ 1\b", " + 2"), (r" - 1\b", " - 0"),
    (r" & ", " | "), (r" \| ", " & "), (r" && ", " || "), (r" \|\| ", " && "), (r" \^ ", " | "), (r" % ", " / "), (r" / ", " % "), (r" >> ", " << "),
    (r"\.min\(", ".max("), (r"\.max\(", ".min("),
    (r"\btrue\b", "false"), (r"\bfalse\b", "true"), (r"\bLogicBit::X\b", "LogicBit::Z"), (r"\bLogicBit::Zero\b", "LogicBit::One"),
    (r"\bvalue\b(?=[,)])", "unknown"), (r"\bunknown\b(?=[,)])", "value"), (r"\bav\b(?=[,)\[])", "au"), (r"\bbu\b(?=[,)\[])", "bv"),
    (r"(?<![\w\[;.])(\d+)(?![\w.])", None), (r"\bfirst\b(?=[,\[])", "second"), (r"\bsecond\b(?=[,\[)])", "first"),
]
# what stands for what in a definition
SPEC = [
    (r"\bZero\b", "One"), (r"\bOne\b", "Zero"), (r"\btrue\b", "false"), (r"\bfalse\b", "true"), (r"\bmax\b", "min"), (r"\bmin\b", "max"),
    (r"\bleb\b", "ltb"), (r"\bltb\b", "leb"), (r"\bnat_le\b", "nat_lt"), (r"\bnat_lt\b", "nat_le"), (r"\band_bit\b", "or_bit"), (r"\bor_bit\b", "and_bit"), (r"\.value\b", ".unknown"),
    (r"\.unknown\b", ".value"), (r" \+ ", " - "), (r" && ", " || "), (r" \|\| ", " && "), (r"(?<![\w.{])(\d+)(?![\w.}])", None),
    (r"\bfirst$", "second"), (r"\bsecond$", "first"),
]


def crates():
    """The crates and what each uses, lowest first."""
    uses = {}
    for line in open("crates.txt"):
        if not line.startswith("#") and ":" in line:
            name, rest = line.split(":")
            uses[name.split()[0]] = rest.split()
    return uses


def bodies(path):
    """The lines of the body of each function that has a contract, in a source file: its name, and the numbers of its lines. The contract of a
    conversion stands in its impl, so its body begins on the line of its name."""
    lines = open(path).read().split("\n")
    name, inside, converts, found = None, False, False, []
    for i, line in enumerate(lines):
        start = re.match(r"(\s*)(?:pub )?(?:extern \"C\" )?fn (\w+)", line)
        if not inside and (line == "}" or re.match(r"\s+ghost \w+ = \{", line)):
            converts = line != "}"
        if start and not inside:
            name, indent, numbers = start.group(2), start.group(1), []
            inside = converts and line.endswith("{")
        elif name and line == indent + "{":
            inside = True
        elif inside and line == indent + "}":
            found.append((name, numbers))
            name, inside = None, False
        elif inside and not line.strip().startswith("//"):
            numbers.append(i)
    return lines, found


def definitions(path):
    """The lines of a file of definitions on which something is defined."""
    lines = open(path).read().split("\n")
    return lines, [i for i, line in enumerate(lines) if " = " in line and not line.startswith(("use ", "--", "abbrev", "unfoldable", "pub "))]


def edits(lines, numbers, rules):
    """Every edit of one operand on these lines: the line's number, and the line as it becomes."""
    for i in numbers:
        for pattern, new in rules:
            for m in re.finditer(pattern, lines[i]):
                text = new if new is not None else str(int(m.group(1)) + 1)
                yield i, lines[i][: m.start()] + text + lines[i][m.end() :]


def drawn(name, each, chance):
    """The edits of a crate: the file, the function or definition's file, the line's number, and the line as it becomes."""
    for folder, _, files in sorted(os.walk(f"crates/{name}")):
        for file in sorted(files):
            path = os.path.join(folder, file)
            if path.endswith(".rt"):
                lines, found = bodies(path)
                for function, numbers in found:
                    choice = list(edits(lines, numbers, CODE))
                    for i, text in chance.sample(choice, min(each, len(choice))):
                        yield path, function, i, text
            elif "/specs/" in path and file != "Lib.antt":
                lines, numbers = definitions(path)
                choice = list(edits(lines, numbers, SPEC))
                for i, text in chance.sample(choice, min(each, len(choice))):
                    yield path, "definition", i, text


def check(name):
    done = subprocess.run(["rt", "check"], cwd=f"crates/{name}", stdout=subprocess.PIPE, stderr=subprocess.STDOUT)
    return done.returncode, done.stdout.decode()


def verdict(uses, name, path):
    """What the prover says of the crate as it stands."""
    status, said = check(name)
    if status == 1:
        return "no program" if re.search(r"error\[[a-z-]+\]", said) else f"refused by {name}"
    if status == 0 and "/specs/" in path:
        for above in (n for n in uses if name in uses[n]):
            status, said = check(above)
            if status == 1:
                return f"refused by {above}"
    return "SURVIVED" if status == 0 else f"no verdict, status {status}"


def main(words):
    each = int(words.pop(words.index("--each") + 1)) if "--each" in words else 1
    seed = int(words.pop(words.index("--seed") + 1)) if "--seed" in words else 1
    uses = crates()
    names = [w for w in words if not w.startswith("--")] or list(uses)
    home = os.getcwd()
    counts = {}
    with tempfile.TemporaryDirectory() as room:
        subprocess.run(["cp", "-a", "crates", "crates.txt", room], check=True)
        os.chdir(room)
        print("| crate | place | was | becomes | verdict |\n|---|---|---|---|---|")
        for name in names:
            # by crate, so that a run over some of them draws the same edits
            chance = random.Random(f"{seed} {name}")
            for path, where, i, text in list(drawn(name, each, chance)):
                lines = open(path).read().split("\n")
                was, lines[i] = lines[i], text
                before = open(path).read()
                open(path, "w").write("\n".join(lines))
                said = verdict(uses, name, path)
                open(path, "w").write(before)
                counts[said.split(" by ")[0]] = counts.get(said.split(" by ")[0], 0) + 1
                place = os.path.relpath(path, f"crates/{name}")
                print(f"| {name} | {place}:{i + 1} {where} | `{was.strip()}` | `{text.strip()}` | {said} |", flush=True)
        os.chdir(home)
    print(", ".join(f"{n} {what}" for what, n in sorted(counts.items())))
    return 1 if counts.get("SURVIVED") else 0


if __name__ == "__main__":
    sys.exit(main(sys.argv[1:]))
