#!/usr/bin/env python3
"""room-cases.py: prints cases of every call but `number` (which number-cases.py has) with rooms that are too short, records of other lengths, and
two faults at once, one a line: the case, a tab, its answer. A case is a good one with faults put in. Each fault has its refusal, the first of them in
the document's order is the answer, and "every refusal returns its number and zeros". The good case is the run by program of document 01 (the paper
marked-run), of which the document says what comes of it."""
import itertools

# "Order: 20, 1, 2, 3, 4, 21, 22, 24, then the event's own"
OWN = 7  # COBB of A where no SOBB of B is pending: 7
ORDER = [20, 1, 2, 3, 4, 21, 22, 24, OWN]

FRESH = bytes([1] + 18 * [0])  # "link 1, all else 0"
ASKED = FRESH[:9] + b'\x01' + FRESH[10:]  # after SOBB A: "pending = own"
START = bytes([255, 0, 0, 0, 0, 0])
KEY = bytes.fromhex('030102030000 040102030400 040102040300 040104020300 040401020300')  # the five lines of the run by program
SLOT = KEY[:6]
ROOM = {'event': 96, 'aspects': 8, 'key': 6}  # the least that a call takes; aspects: 2n bytes


def good():
    return {
        'plan': bytearray(b'LB\x04\x02'),
        'situation': bytearray(b'SI' + FRESH),
        'event': bytearray([1, 0]),  # SOBB A
        'reading': bytearray([2, 0]),  # orientation of A
        'EV': bytearray(b'EV' + bytes([4, 1, 0, 2, 1, 14, 0, 17, 1])),
        'RD': bytearray(b'RD' + bytes([1, 1, 1, 2])),
        'LN': bytearray(b'LN\x04'),
        'after': bytearray(START),
        'slot': bytearray(SLOT),
        'spare': 4,  # bytes of the room beyond the least
    }


# ---- the calls: what they read, and what comes of the good case

READS = {
    'plan': ['plan'],
    'sound': ['plan', 'situation'],
    'event': ['plan', 'situation', 'event'],
    'aspects': ['plan', 'situation'],
    'reading': ['plan', 'situation', 'reading'],
    'question': ['question'],
    'key': ['question', 'after'],
    'run': ['question', 'slot'],
}
ZEROS = {'event': ' 0 -', 'aspects': ' -', 'reading': ' 0', 'key': ' 0 0 -', 'run': ' 0 0 0 0'}


def accepted(call, room):
    """What the good case gives: in the fresh situation no area has a direction, so that every signal is red."""
    if call == 'key':
        count = min(room // 6, 5)
        return f' {count} {int(count < 5)} {KEY[:6 * count].hex()}'
    return {'event': f' 0 {(b"SI" + ASKED).hex()}', 'aspects': ' ' + 8 * '00', 'reading': ' 0', 'run': ' 0 0 0 1'}.get(call, '')


def case(call, changes=(), room=None):
    """The good case of a call with changes put in, each with its refusal."""
    it, refusals = good(), []
    for refusal, change in sorted(changes, key=lambda c: -ORDER.index(c[0])):
        change(it)
        refusals.append(refusal)
    it['question'] = b''.join(it[part] for part in ('plan', 'situation', 'EV', 'RD', 'LN'))
    words = [it[part].hex() or '-' for part in READS[call]]
    if call in ROOM:
        if room is None:
            room = ROOM[call] + it['spare']
        elif room < ROOM[call]:
            refusals.append(24)
        words.append(str(room))
    refusal = min(refusals, key=ORDER.index, default=0)
    return f'{call} {" ".join(words)}\t{refusal}{ZEROS.get(call, "") if refusal else accepted(call, room)}'


# ---- faults

def put(part, at, value):
    def change(it):
        it[part][at] = value
    return change


def resized(part, size):
    """The part cut, or lengthened by zeros."""
    def change(it):
        it[part][:] = (bytes(it[part]) + bytes(size))[:size]
    return change


def short(it):
    it['spare'] = -1


BLOCK = {1: put('plan', 3, 4), 2: put('situation', 2, 2)}  # a frontier after the last section; link 2
QUESTION = {20: resized('LN', 4), **BLOCK, 3: put('EV', 3, 0), 4: put('EV', 6, 9), 21: put('LN', 2, 6)}
FAULTS = {
    'plan': {20: resized('plan', 5), 1: BLOCK[1]},
    'sound': {20: resized('situation', 22), **BLOCK},
    'event': {20: resized('event', 3), **BLOCK, 3: put('event', 0, 255), 4: put('event', 1, 2), 24: short, OWN: put('event', 0, 2)},
    'aspects': {20: resized('plan', 3), **BLOCK, 24: short},
    'reading': {20: resized('reading', 1), **BLOCK, 21: put('reading', 1, 2)},
    'question': QUESTION,
    'key': {**QUESTION, 22: put('after', 1, 1), 24: short},
    'run': {**QUESTION, 22: put('slot', 0, 5)},
}
RECORDS = {  # the refusal of a part of another length, and the lengths
    'plan': (20, [0, 1, 2, 3, 5, 8, 25]),
    'situation': (20, [0, 1, 2, 19, 20, 22, 42]),
    'event': (20, [0, 1, 3, 4]),
    'reading': (20, [0, 1, 3, 4]),
    'LN': (20, [0, 2, 4]),
    'after': (22, [0, 1, 5, 7, 12]),
    'slot': (22, [0, 1, 5, 7, 12]),
}


def rooms():
    for room in (0, 1, 2, 20, 21, 22, 48, 94, 95, 96, 97, 1000):
        yield case('event', room=room)
        yield case('event', [(OWN, FAULTS['event'][OWN])], room)
    for room in range(11):
        yield case('aspects', room=room)
    for room in (*range(8), 11, 12, 13, 29, 30, 31, 36):
        yield case('key', room=room)


def lengths():
    """Each part of another length, of a question too; the shortest and the longest also in a room that is too short."""
    for call, reads in READS.items():
        for part in ['plan', 'LN', *reads[1:]] if 'question' in reads else reads:
            refusal, sizes = RECORDS[part]
            for size in sizes:
                yield case(call, [(refusal, resized(part, size))])
                if call in ROOM and size in (sizes[0], sizes[-1]):
                    yield case(call, [(refusal, resized(part, size))], ROOM[call] - 1)


def orders():
    """The good case, each fault, and each two of them."""
    for call, faults in FAULTS.items():
        for count in (0, 1, 2):
            for some in itertools.combinations(faults.items(), count):
                yield case(call, some)


def main():
    for line in dict.fromkeys([*rooms(), *lengths(), *orders()]):
        print(line)


main()
