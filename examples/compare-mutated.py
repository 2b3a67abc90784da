#!/usr/bin/env python3
"""Gives the same damaged inputs to two programs, and compares all that they answer.

    python3 examples/compare-mutated.py PROGRAM OTHER [COUNT] [SEED]

A case takes a script, the input of a load, or the two files that a replay left, damages it at random, and runs it through both
programs. Compared are the status, what is printed, and both files afterwards. The seeds are the scripts of this folder. At the
end stands one line: how many cases were the same, and how many weren't. A case that differs is printed with its number: the same
SEED and number make the same case again.
"""
import os
import random
import subprocess
import sys
import tempfile

HERE = os.path.dirname(os.path.abspath(__file__))
WORDS = [b"null", b"-1", b"0", b"1", b"2147483647", b"2147483648", b"9223372036854775807", b"1e9", b"\"\"", b"[]", b"{}", b"true",
         b"\"x\"", b"\"/\"", b"\"/config\"", b"\"/controller\"", b"\"/migration\"", b"\\u0000", b"\xff"]


def seeds():
    """The scripts, and the inputs of loads, as lists of lines."""
    scripts, loads = [], []
    for name in sorted(os.listdir(HERE)):
        if name.endswith(".jsonl"):
            with open(os.path.join(HERE, name), "rb") as it:
                (loads if name.endswith(".load.jsonl") else scripts).append(it.read().splitlines(True))
    return scripts, loads


def damaged_lines(lines, pick):
    """The lines after one to four changes."""
    lines = list(lines)
    for _ in range(pick.randint(1, 4)):
        at = pick.randrange(len(lines)) if lines else 0
        kind = pick.randrange(7)
        if not lines:
            lines.append(b"{}\n")
        elif kind == 0:
            del lines[at]
        elif kind == 1:
            lines.insert(at, lines[pick.randrange(len(lines))])
        elif kind == 2:
            other = pick.randrange(len(lines))
            lines[at], lines[other] = lines[other], lines[at]
        elif kind == 3:
            lines[at] = damaged_bytes(lines[at], pick)
        elif kind == 4:
            parts = lines[at].split(b":")
            part = pick.randrange(len(parts))
            parts[part] = pick.choice(WORDS) + pick.choice([b"", b",", b"}", b"}\n"])
            lines[at] = b":".join(parts)
        elif kind == 5:
            digits = [i for i, b in enumerate(lines[at]) if 48 <= b <= 57]
            if digits:
                i = pick.choice(digits)
                lines[at] = lines[at][:i] + bytes([pick.randint(48, 57)]) + lines[at][i + 1:]
        else:
            lines[at] = lines[at].rstrip(b"\n")
    return b"".join(lines)


def damaged_bytes(data, pick):
    """Bytes of which one was changed, added or taken out, or that were cut off."""
    if not data:
        return bytes([pick.randrange(256)])
    at = pick.randrange(len(data))
    kind = pick.randrange(4)
    if kind == 0:
        return data[:at] + bytes([data[at] ^ (1 << pick.randrange(8))]) + data[at + 1:]
    if kind == 1:
        return data[:at] + data[at + 1:]
    if kind == 2:
        return data[:at] + bytes([pick.randrange(256)]) + data[at:]
    return data[:at]


def run(program, tree, log, word, data):
    """The answer of a program over two files with these bytes, and the files afterwards."""
    with tempfile.TemporaryDirectory(dir="/dev/shm" if os.path.isdir("/dev/shm") else None) as folder:
        paths = [os.path.join(folder, "tree"), os.path.join(folder, "log")]
        for path, held in zip(paths, (tree, log)):
            if held is not None:
                with open(path, "wb") as it:
                    it.write(held)
        try:
            done = subprocess.run([program, *paths, *word], input=data, capture_output=True, timeout=60)
            answer = (done.returncode, done.stdout, done.stderr)
        except subprocess.TimeoutExpired:
            answer = ("no end in 60 s", b"", b"")
        left = []
        for path in paths:
            left.append(open(path, "rb").read() if os.path.exists(path) else None)
        return answer, tuple(left)


def main(argv):
    if len(argv) < 2:
        sys.exit(__doc__)
    programs = [os.path.abspath(it) for it in argv[:2]]
    count = int(argv[2]) if len(argv) > 2 else 1000
    seed = int(argv[3]) if len(argv) > 3 else 1
    scripts, loads = seeds()
    new = run(programs[0], None, None, ["init"], b"")[1]
    # the files that each script leaves, and each load
    left = [run(programs[0], *new, ["replay"], b"".join(it))[1] for it in scripts] + [run(programs[0], None, None, ["load"], b"".join(it))[1] for it in loads]
    same = different = 0
    for number in range(count):
        pick = random.Random(seed * 1000003 + number)
        kind = pick.randrange(4)
        if kind == 0:
            case = (*new, ["replay"], damaged_lines(pick.choice(scripts), pick))
        elif kind == 1:
            case = (None, None, ["load"], damaged_lines(pick.choice(loads), pick))
        elif kind == 2:
            case = (*pick.choice(left), ["replay"], damaged_lines(pick.choice(scripts), pick))
        else:
            tree, log = pick.choice(left)
            for _ in range(pick.randint(1, 2)):
                if pick.randrange(2):
                    tree = damaged_bytes(tree, pick)
                else:
                    log = damaged_bytes(log, pick)
            word = pick.choice([["replay"], ["check"], ["status"], ["dump-tree"], ["dump-log"], ["render"], ["render", "4"], ["upgrade"], ["init"], ["load"]])
            data = b"".join(pick.choice(scripts)) if word == ["replay"] else b"".join(pick.choice(loads)) if word == ["load"] else b""
            case = (tree, log, word, data)
        one, other = (run(it, *case) for it in programs)
        if one == other:
            same += 1
        else:
            different += 1
            print("case %d of seed %d, %s: %r and %r%s" % (number, seed, " ".join(case[2]), one[0][::2], other[0][::2], "" if one[0] != other[0] else ", and other files"))
    print("%d the same, %d different" % (same, different))
    return 1 if different else 0


if __name__ == "__main__":
    sys.exit(main(sys.argv[1:]))
