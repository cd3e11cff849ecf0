"""What the explaining programs are compared on: each entry of examples/reasons; a short input cut at every byte, with another size byte, and with every
single bit of its line turned; every field of a question spoiled, for every kind; lines of every odd length up to 283 bytes, where the longest answer has
280; inputs about the most, 65,536 bytes; 2,000 right answers damaged at random, in their words, in their bytes under a right PEC or a wrong one, in their
length and in their question; and 500 lines of random words, as long as the answer that is due. What is printed must have the form that docs/DECISIONS.md
gives it ('What does `explain` read and print?'), and be `R 14` exactly where the input is no question with a line; document 02 gives no form."""
import re

from certify import TREE  # and with it job is found
import job

NAMES = 'QUESTION ROOM LENGTH CHARACTER FRAME MANCHESTER ECHO PEC ALIVE CHECK COUNT'.split()
# By how a place is said: what may follow, and which numbers have such a place.
FORMS = ((r'at word \d+\nstood [0-9A-F]{4}h\n(only [0-9A-F]{4}h would have passed\n)?', (4, 5, 6)),
         (r'at byte \d+ \(words \d+ and \d+\)\nstood [0-9A-F]{2}h\n(only [0-9A-F]{2}h would have passed\n)?', (7, 8, 9, 10, 11)),
         (r'at the line\nstood \d+ bytes\nonly \d+ bytes would have passed\n', (3,)),
         (r'at (kind|alive|n)\nstood \d+\n', (1,)),
         (r'at device\nstood \d+\n(only 0 would have passed\n)?', (1,)))


def fault(data, printed):
    none = not 9 <= len(data) <= 65536 or data[0] != 8
    if none or printed == b'R 14\n':
        return None if none == (printed == b'R 14\n') else f'{printed[:20]!r} is the wrong sort of answer'
    if printed == b'accepted\n':
        return None
    said = re.fullmatch(r'turned away: (\d+) (\w+)\n(.*)', printed.decode(), re.S)
    if not said or said[2] != NAMES[int(said[1]) - 1]:
        return f'{printed!r} begins with no number and its name'
    if not any(re.fullmatch(form, said[3]) and int(said[1]) in numbers for form, numbers in FORMS):
        return f'{printed!r} has another form'
    return None


def any_ask(chance, n):
    kind = chance.randrange(5)
    return job.asked(kind, register=chance.randrange(256), value=chance.randrange(65536),
                     device=chance.randrange(n) if kind in (2, 4) else chance.randrange(256), seed=chance.randrange(256))


def right(chance, ask, n, alive):
    """The bytes of a right answer."""
    count = {job.READALL: n, job.READDEVICE: 1}.get(ask.kind, 0)
    values = [chance.randrange(65536) for _ in range(count)]
    return job.right_bytes(ask, [chance.randint(1, 32)] if ask.kind == job.HELLOALL else values, n, alive)


def damaged_bytes(chance, data, ask, alive):
    """Up to two bytes are others; the PEC is wrong with them, or goes along."""
    data = list(data)
    for _ in range(chance.randint(1, 2)):
        at = chance.choice((chance.randrange(len(data)), chance.randrange(4) % len(data), len(data) - 1, len(data) - 2 - alive))
        data[at] = chance.choice((0, data[at] ^ 1 << chance.randrange(8), chance.randrange(256)))
    if ask.kind != job.HELLOALL and chance.random() < 0.6:
        place = len(data) - 1 - alive
        data[place] = job.pec(data[:place])
    return data


def damaged_words(chance, words):
    """Up to two words are others: of any bits, any character, or with turned bits."""
    words = list(words)
    for _ in range(chance.randint(1, 2)):
        at = chance.choice((chance.randrange(len(words)), 0, -1))
        words[at] = chance.choice((chance.randrange(65536), job.character(chance.randrange(256)),
                                   words[at] ^ 1 << chance.randrange(16), words[at] ^ 3 << chance.randrange(11)))
    return words


def damaged(chance):
    """A right answer's input, with damage at some of the levels."""
    n, alive = chance.choice((1, 2, chance.randint(1, 32))), chance.randrange(2)
    ask = any_ask(chance, n)
    data = right(chance, ask, n, alive)
    if chance.random() < 0.7:
        data = damaged_bytes(chance, data, ask, alive)
    words = job.line_of(data)
    if chance.random() < 0.3:
        words = damaged_words(chance, words)
    if chance.random() < 0.08:
        words = words[:chance.randrange(len(words))] + words[:chance.randrange(3)]
    out = bytearray(job.asked_of(ask, words, n, alive))
    if chance.random() < 0.08:
        out[chance.randint(1, 8)] = chance.choice((0, 1, 2, 5, 33, chance.randrange(256)))
    return bytes(out) + chance.randbytes(chance.random() < 0.05)


def random_line(chance):
    """Of the length that is due: words of any bits, any characters, or any that stand for a nibble; its ends are such words too, or right."""
    n, alive = chance.randint(1, 32), chance.randrange(2)
    ask = any_ask(chance, n)
    any_word = chance.choice((lambda: chance.randrange(65536), lambda: job.character(chance.randrange(256)), lambda: chance.choice(job.NIBBLES)))
    words = [any_word() for _ in job.line_of(right(chance, ask, n, alive))]
    if chance.random() < 0.5:
        words[0], words[-1] = job.PREAMBLE, job.STOP
    return job.asked_of(ask, words, n, alive)


# By where a field stands in the input. Row 1 speaks of kind, n, alive and device: the values about their bounds.
BOUNDED = ((1, (5, 6, 128, 255)), (2, (0, 1, 2, 32, 33, 255)), (3, (0, 1, 2, 255)), (7, (0, 1, 2, 3, 31, 32, 255)))
# Register, value low, value high and seed may be any: answers echo the register, those of writes the value too, and the alive byte follows from the seed.
UNBOUNDED = tuple((field, (0, 1, 127, 255)) for field in (4, 5, 6, 8))


def spoiled_fields(chance):
    """A right answer of every kind, with one field of its question another; and with a bad or the smallest n besides, where row 1 speaks of the field."""
    for kind in range(5):
        ask = job.asked(kind, register=0x12, value=0x3456, device=int(kind in (job.WRITEDEVICE, job.READDEVICE)), seed=0x78)
        asked = job.asked_of(ask, job.line_of(right(chance, ask, 2, 1)), 2, 1)
        for field, values in BOUNDED + UNBOUNDED:
            for value in values:
                out = bytearray(asked)
                out[field] = value
                yield bytes(out)
                if (field, values) in BOUNDED:
                    out[2] = 1 if field == 7 else 0
                    yield bytes(out)


def inputs(chance):
    hello = job.asked_of(job.asked(job.HELLOALL), job.line_of([0x57, 0x00, 0x02]), 2, 0)
    read = job.asked(job.READALL, register=0x12)
    asked = job.asked_of(read, job.line_of(right(chance, read, 2, 0)), 2, 0)
    for path in sorted((TREE / 'examples' / 'reasons').glob('*.bmc')):
        n, alive, _, entries = job.opened(path.read_bytes())
        yield from (job.asked_of(*entry, n, alive) for entry in entries)
    yield from (hello[:cut] for cut in range(len(hello) + 1))
    yield from (bytes([size]) + hello[1:] for size in (0, 1, 7, 9, 255))
    for place in range(9, len(hello)):
        for bit in range(8):
            yield hello[:place] + bytes([hello[place] ^ 1 << bit]) + hello[place + 1:]
    yield from spoiled_fields(chance)
    yield from (asked[:9] + chance.randbytes(size) for size in (*range(1, 284, 2), 4001))
    for front in (asked[:9], hello[:9], b'\x08\x05' + asked[2:9]):
        yield from (front + bytes(size - 9) for size in (65535, 65536, 65537, 70000))
    yield from (damaged(chance) for _ in range(2000))
    yield from (random_line(chance) for _ in range(500))
