#!/usr/bin/env python3
"""Writes the cases of crates/list_cases: its stdin, drawers in a short form, and its stdout, what they list as.

The listing is told here once more, from document 01 alone and without the library: a record is cut from its bytes,
its parentheses go to a string, and the string is judged by a counter.

    tests/list_cases.py           writes both files
    tests/list_cases.py check     says whether they are what it would write
    tests/list_cases.py run LIST  hands every drawer to the program LIST (bin/list, say) and compares all of its output
"""
import os, random, struct, subprocess, sys

HERE = os.path.join(os.path.dirname(os.path.abspath(__file__)), "..", "crates", "list_cases")
LONG = 100  # of a longer line list_cases shows the length and a digest

# ---- the listing


def judge(body, n):
    """The parentheses of n entries, or 6 or 7."""
    signs = "".join("(" if byte >> k & 1 else ")" for byte in body for k in range(8))
    if "(" in signs[2 * n :]:
        return None, 6
    excess = 0
    for sign in signs[: 2 * n]:
        excess += 1 if sign == "(" else -1
        if excess < 0:
            return None, 7
    return (signs[: 2 * n], None) if excess == 0 else (None, 7)


def greatest(signs):
    depths, excess = [0], 0
    for sign in signs:
        excess += 1 if sign == "(" else -1
        depths.append(excess)
    return max(depths)


def listing(drawer):
    """The lines of a drawer."""
    if len(drawer) > 65536:
        return ["refused 12"]
    lines, at = [], 0
    while at < len(drawer):
        number, left = len(lines), drawer[at:]
        if number == 64:
            lines.append("64 refused 14")
            break
        fault = None
        if len(left) < 4:
            fault = 5
        elif left[:2] != b"RM":
            fault = 4
        else:
            n = left[2] + 256 * left[3]
            size = 4 + -(-n // 4)
            fault = 1 if n > 32768 else 5 if len(left) < size else None
        if fault:
            lines.append(f"{number} refused {fault}")
            break
        signs, refusal = judge(left[4:size], n)
        lines.append(f"{number} refused {refusal}" if refusal else f"{number} {n} {greatest(signs)} {signs or '-'}")
        at += size
    return lines + [f"end {len(lines)}"]


# ---- drawers, each a list of (times, bytes)


def head(n):
    return b"RM" + struct.pack("<H", n)


def record(signs):
    bits = signs + ")" * (-len(signs) % 8)
    return head(len(signs) // 2) + bytes(
        sum(1 << k for k in range(8) if bits[b + k] == "(") for b in range(0, len(bits), 8)
    )


def signs_of(rng, n):
    """A balanced sequence of n openings, by chance."""
    out, opened, excess = "", 0, 0
    for _ in range(2 * n):
        up = opened < n and (excess == 0 or rng.random() < rng.choice((0.3, 0.5, 0.7)))
        out, opened, excess = out + "()"[not up], opened + up, excess + (1 if up else -1)
    return out


def drawers():
    rng = random.Random(20261115)
    good, none = (1, record("(())(())()")), (1, head(0))
    many = (1, record("()(())"))
    half = 32768 // 8
    peak, flat = (1, head(32768)), [(1, head(32768)), (8192, b"\x55")]
    full = [x for _ in range(7) for x in (peak, (half, b"\xff"), (half, b"\x00"))]
    # 65,536 bytes: seven records of 8,196 and one of 8,164
    last = [(1, head(32640)), (8160, b"\x55")]
    yield [(1, bytes.fromhex("524D05003301524D010002"))]
    yield []
    yield [none]
    yield [good, none, many]
    # each refusal: 5 by length, head and body; 4 in either byte; 1; 6; 7 in both ways; and what follows them
    for bad in ("52", "00", "524D", "524D05", "524D0500", "524D050033", "534D050033", "524E0500", "524D0180", "524D0080"):
        yield [good, (1, bytes.fromhex(bad))]
        yield [(1, bytes.fromhex(bad))]
    for bad in ("524D010005", "524D010002", "524D010003", "524D010080", "524D0200FF", "524D03008D"):
        yield [(1, bytes.fromhex(bad)), good]
        yield [good, (1, bytes.fromhex(bad))]
    # a 7 before a 4, a 4 that hides a 7
    yield [(1, bytes.fromhex("524D010002534D010002")), good]
    # 63, 64 and 65 records, and 64 with one byte behind, the last of them refused or not
    for count in (63, 64, 65):
        yield [(count, head(0))]
    yield [(64, head(0)), (1, b"\x00")]
    yield [(64, head(0)), (1, b"\x52")]
    yield [(63, many[1]), (1, bytes.fromhex("524D01000200"))]
    yield [(63, many[1]), (1, bytes.fromhex("524D010005")), (1, b"RM")]
    yield [(63, many[1]), (1, b"XY")]
    # a record of 32,768 entries, in its two plainest shapes; one entry more
    yield flat
    yield [peak, (half, b"\xff"), (half, b"\x00")]
    yield [(1, head(32769)), (8193, b"\x55")]
    yield [peak, (half, b"\xff"), (half - 1, b"\x00"), (1, b"\x01")]
    # 65,536 bytes and one more, whole and with a fault
    yield full + last
    yield full + last + [(1, b"\x52")]
    yield full + last[:1] + [(8159, b"\x55"), (1, b"\xaa")]
    yield [(65536, b"\x00")]
    yield [(65537, b"\x00")]
    yield [(16384, head(0))]
    # by chance: whole drawers, with a bit turned, cut short
    for _ in range(60):
        text = b"".join(record(signs_of(rng, rng.choice((0, 1, 2, 3, 4, 5, 8, 13, 40)))) for _ in range(rng.randrange(1, 8)))
        if rng.random() < 0.4:
            k = rng.randrange(8 * len(text))
            text = text[: k // 8] + bytes([text[k // 8] ^ 1 << k % 8]) + text[k // 8 + 1 :]
        if rng.random() < 0.3:
            text = text[: rng.randrange(len(text) + 1)]
        yield [(1, text)]


def expand(parts):
    return b"".join(times * text for times, text in parts)


# ---- the two files


def digest(line):
    value = 0
    for code in line.encode():
        value = (value * 131 + code) % 1000000007
    return value


def written(parts):
    """A part is its times and its length, two bytes each, low byte first, and its bytes; times of 0 ends a drawer."""
    out = b""
    for times, text in parts:
        while times > 0:
            now = min(times, 65535)
            out += struct.pack("<HH", now, len(text)) + text
            times -= now
    return out + struct.pack("<HH", 0, 0)


def shown(line):
    return f"{line}\n" if len(line) + 1 <= LONG else f"{len(line) + 1} characters, digest {digest(line + chr(10))}\n"


def main(words):
    files = {
        "stdin": b"".join(written(parts) for parts in drawers()),
        "stdout": "".join(shown(line) for parts in drawers() for line in listing(expand(parts))).encode(),
    }
    if words[:1] == ["run"]:
        wrong = 0
        for k, parts in enumerate(drawers()):
            got = subprocess.run([words[1]], input=expand(parts), stdout=subprocess.PIPE).stdout
            if got != "".join(line + "\n" for line in listing(expand(parts))).encode():
                print(f"drawer {k} lists otherwise")
                wrong += 1
        print(f"{k + 1} drawers, {wrong} list otherwise")
        return wrong > 0
    if words == ["check"]:
        stale = [name for name, text in files.items() if open(os.path.join(HERE, name), "rb").read() != text]
        print("stale: " + " ".join(stale) if stale else "both files are as they should be")
        return len(stale) > 0
    for name, text in files.items():
        open(os.path.join(HERE, name), "wb").write(text)
        print(name, len(text), "bytes")
    return 0


if __name__ == "__main__":
    sys.exit(main(sys.argv[1:]))
