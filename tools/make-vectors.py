#!/usr/bin/env python3
"""make-vectors.py CASES.tsv.. > crates/vectors/stdin: cases, a line each, as the compact records that the program `vectors` reads. Its cases are
the outside ones, what number-cases.py prints, what question-cases.py prints of the papers marked-run, pending-sobb, link-down and ten-seconds, what
room-cases.py prints, and cases/key-program.tsv, in this order.

A record is a head of 21 bytes, the case's three inputs, and what the call is to write into the room. The head has the kind of the case (1 byte), the
length of the room (4), the number that the call is to answer (8), the lengths of the three inputs (2 each) and of all that follows the head (2).
Numbers have their low byte first. Each function below takes the words of a case and of its answer, and gives the inputs, the length of the room, the
number, packed as the call packs it, and the bytes written.

make-vectors.py --wrong CASES.tsv..: the same with another number in each, so that the program must name every case."""
import sys

# What a piece of the text may want of the room beyond the text that it leaves: the longest room of a piece has 185 bytes (crates/vectors/src/text.rt).
PIECE = 200


def hexed(text):
    return b'' if text == '-' else bytes.fromhex(text)


def number(text, size):
    return int(text).to_bytes(size, 'little')


def judged(words, answer):
    """Plan, plan and situation, or question: the refusal."""
    return [hexed(w) for w in words], 0, int(answer[0]), b''


def event(words, answer):
    *given, room = words
    refusal, name, after = answer
    after = hexed(after)
    return [hexed(w) for w in given], room, int(refusal) + (int(name) << 8) + (len(after) << 16), after


def aspects(words, answer):
    *given, room = words
    refusal, shown = answer
    return [hexed(w) for w in given], room, int(refusal), hexed(shown)


def reading(words, answer):
    refusal, value = answer
    return [hexed(w) for w in words], 0, int(refusal) + (int(value) << 8), b''


def key(words, answer):
    question, after, room = words
    refusal, count, more, slots = answer
    return [hexed(question), hexed(after)], room, int(refusal) + (int(more) << 8) + (int(count) << 16), hexed(slots)


def run(words, answer):
    refusal, place, event_refusal, name, holds = map(int, answer)
    return [hexed(w) for w in words], 0, refusal + (place << 8) + (event_refusal << 16) + (holds << 24) + (name << 32), b''


def typed(words, answer):
    """One input: kind (1 byte), amount, speed, tolerance (4 each), unit (1), pattern (4)."""
    *given, room = words
    refusal, line = answer
    return [b''.join(map(number, given, (1, 4, 4, 4, 1, 4)))], room, int(refusal), hexed(line)


def keytext(words, answer):
    """The number is the length of the text."""
    text = ' '.join(answer).replace('|', '\n').encode()
    return [hexed(words[0])], len(text) + PIECE, len(text), text


KINDS = {
    'plan': (1, judged),
    'sound': (2, judged),
    'event': (3, event),
    'aspects': (4, aspects),
    'reading': (5, reading),
    'question': (6, judged),
    'key': (7, key),
    'run': (8, run),
    'number': (9, typed),
    'keytext': (10, keytext),
}


def record(line, wrong):
    case, answer = line.rstrip('\n').split('\t')
    name, *words = case.split(' ')
    kind, parts = KINDS[name]
    inputs, room, told, written = parts(words, answer.split(' '))
    inputs += [b''] * (3 - len(inputs))
    body = b''.join(inputs) + written
    lengths = b''.join(number(len(part), 2) for part in (*inputs, body))
    return number(kind, 1) + number(room, 4) + number(told ^ wrong, 8) + lengths + body


def main():
    wrong = 1 if sys.argv[1:2] == ['--wrong'] else 0
    for name in sys.argv[1 + wrong:]:
        for line in open(name, encoding='ascii'):
            sys.stdout.buffer.write(record(line, wrong))


main()
