#!/usr/bin/env python3
"""question-cases.py PAPER..: prints cases `question HEX<TAB>REFUSAL` for papers near accepted ones, each given as a file of its bytes: every
single-byte change to a dozen telling values, every cut, and every lengthening by one byte. question-cases.py --verify FILE holds the judgment to
the `question` cases of FILE. The judgment is written from document 01 and requests 01, 02 and 05 of document 02 alone."""
import sys

MARKS = [(b"LB", b"LC"), (b"SI", b"SJ"), (b"EV",), (b"RD",), (b"LN",)]
SIZES = {b"LB": 2, b"LC": 3, b"SI": 19, b"SJ": 21, b"LN": 1}
TELLING = [0, 1, 2, 3, 4, 5, 6, 7, 10, 11, 12, 13, 23, 24, 127, 128, 129, 255]


def parts(paper):
    """The bodies of the five records, or None where the form is not whole."""
    bodies, at = [], 0
    for marks in MARKS:
        mark = paper[at:at + 2]
        if mark not in marks:
            return None
        at += 2
        if mark in (b"EV", b"RD"):
            least, most, width = (1, 12, 2) if mark == b"EV" else (0, 6, 3)
            if at >= len(paper) or not least <= paper[at] <= most:
                return None
            size = 1 + width * paper[at]
        else:
            size = SIZES[mark]
        if at + size > len(paper):
            return None
        if mark == b"LC" and paper[at + 2] != 1:
            return None
        if mark == b"SJ" and paper[at + 19:at + 21] == b"\0\0":
            return None
        bodies.append(paper[at:at + size])
        at += size
    return bodies if at == len(paper) else None


def station(own, annulment, exit_route, bilc):
    """What soundness asks of one station."""
    if annulment and own:
        return False
    if exit_route and (bilc or own == 2):
        return False
    if exit_route == 1 and annulment:
        return False
    return not (exit_route == 2 and annulment == 1)


def watched(mark, count, occupied, exits):
    """What soundness asks of mark and count."""
    if mark > 1 or count > 10 or (count and (not mark or occupied)):
        return False
    return not (mark and (any(exits) or not (occupied or count)))


def pair(area, annulment, bilc, bslg, held):
    """Annulment and what 2012 excludes beside it, at one station; area and held as bits, section 1 the lowest."""
    return annulment and (bilc or bslg or held & area)


def sound(n, b, old, si):
    link, orient, annul, exits, pending = si[0], si[1:3], si[3:5], si[5:7], si[9]
    if link > 1 or max(orient) > 2 or max(annul) > 2 or max(exits) > 2 or max(si[7:9]) > 1 or pending > 2 or max(si[10:13]) > 3:
        return False
    occupied, held_b, held_a = (si[at] + 256 * si[at + 1] for at in (13, 15, 17))
    if len(si) == 21 and not watched(si[19], si[20], occupied, exits):
        return False
    if (occupied | held_b | held_a) >> n or held_b & 1 or held_a >> (n - 1) & 1:
        return False
    if link and sorted(orient) not in ([0, 0], [1, 2]):
        return False
    if not link and orient[0] == orient[1] != 0:
        return False
    if not all(station(orient[s], annul[s], exits[s], si[10] >> s & 1) for s in (0, 1)):
        return False
    areas = ((1 << b) - 1, (1 << n) - (1 << b))
    if old and any(pair(areas[s], annul[s], si[10] >> s & 1, si[11] >> s & 1, held_b | held_a) for s in (0, 1)):
        return False
    if pending:
        asker = pending - 1
        return bool(link) and not annul[asker] and orient[asker] != 1
    return True


def argument_right(n, code, argument):
    signal, section = argument >= 128, argument % 128
    if code in (10, 11):
        exit_signal = section == n if signal else section == 1
        return 1 <= section <= n and not exit_signal
    if code in (19, 20):
        return 1 <= argument <= n
    if code in (21, 22, 23):
        return argument == 0
    return argument <= 1


def reading_right(n, kind, argument, value):
    if kind == 1:
        return 1 <= argument % 128 <= n and value <= 2
    if kind in (2, 3, 4):
        return argument <= 1 and value <= 2
    return kind == 5 and argument == 0 and value <= 1


def refusal(paper):
    bodies = parts(paper)
    if bodies is None:
        return 20
    plan, si, ev, rd, ln = bodies
    n, b, old = plan[0], plan[1], len(plan) == 3
    if not (2 <= n <= 16 and 1 <= b < n):
        return 1
    if not sound(n, b, old, si):
        return 2
    events = [(ev[at], ev[at + 1]) for at in range(1, len(ev), 2)]
    for code, argument in events:
        if not 1 <= code <= 23:
            return 3
        if not argument_right(n, code, argument):
            return 4
    readings = [rd[at:at + 3] for at in range(1, len(rd), 3)]
    if ln[0] > 5 or len(set(events)) < len(events) or not all(reading_right(n, *r) for r in readings):
        return 21
    return 0


def near(paper):
    """The paper, each single-byte change, each cut, each lengthening by one byte."""
    yield paper
    for at, was in enumerate(paper):
        for value in dict.fromkeys(TELLING + [was ^ 1, was ^ 128, (was + 1) % 256]):
            if value != was:
                yield paper[:at] + bytes([value]) + paper[at + 1:]
    for size in range(len(paper)):
        yield paper[:size]
    for value in TELLING:
        yield paper + bytes([value])


def from_text(text):
    """A paper from hex; `-` for no bytes."""
    return b"" if text == "-" else bytes.fromhex(text)


def verify(path):
    cases = wrong = 0
    for line in open(path):
        if line.startswith("question "):
            text, expected = line[len("question "):].rstrip("\n").split("\t")
            judged = refusal(from_text(text))
            cases += 1
            if judged != int(expected):
                wrong += 1
                print("differs:", text, "expected", expected, "judged", judged)
    print(f"{cases} cases, {wrong} differ")
    return wrong == 0


def main(words):
    if len(words) == 2 and words[0] == "--verify":
        return 0 if verify(words[1]) else 1
    if not words:
        print(__doc__, file=sys.stderr)
        return 2
    for name in words:
        paper = open(name, "rb").read()
        if refusal(paper) != 0:
            print("not accepted:", name, file=sys.stderr)
            return 1
        for case in near(paper):
            print(f"question {case.hex() or '-'}\t{refusal(case)}")
    return 0


if __name__ == "__main__":
    sys.exit(main(sys.argv[1:]))
