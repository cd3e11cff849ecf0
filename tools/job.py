"""Write and look at job files (.bmc) in words, without a hex editor.

`job write` turns lines of text into a job file, `job show` prints a job file
as such lines; writing what was shown gives the same bytes again. The format
and the answers are those of document 01 ('The line', 'Commands and answers',
'Job file and certificate'), version 2 of the format that of document 02, the PEC
and the registers' names those of data sheet 004. `job ask` writes one entry as the
program explain takes it, `job why` hands it every entry and shows what it says of
those that were turned away (document 02). Nothing here judges an answer: that is the
proved programs' work. What is read stands on descriptor 3, where ./job puts standard
input.
"""
import os
import re
import struct
import subprocess
import sys
from collections import namedtuple

USAGE = """\
usage: job write < plan.txt > plan.bmc          words to a job file
       job show < plan.bmc                      a job file to words
       job why < plan.bmc                       for each entry that was turned away, why
       job ask 3 < plan.bmc | ./run explain     the same of entry 3 alone, turned away
                                                or not; entries count from 1

A plan, with all that may stand in one:

  chain 2 alive version 2          # 1 to 32 devices; 'alive' if its byte is on;
                                   # 'version 2' for masks, left out it is 1
  helloall                         # the questions, one a line, in their order
    answer right 2                 # what came back: here the count
  writeall 12h = 000Fh seed F0h    # seed only with alive; left out it is 00h
    answer right
  readall 12h
    answer right 000Fh 0000h       # the values, address 0 first
    turn 5.3 5.4                   # damage: turn over bits 3 and 4 of word 5
  readdevice 1 MEASUREEN           # 12h by its name in data sheet 004
    answer bytes 0D 12 0F 00 20 pec 01   # any bytes; pec: of those before it
  writedevice 1 13h = 0025h mask 1FFEh   # mask: the bits that a read has to show
                                   # for an S; it stands before any seed; left out: FFFFh
    answer words E2A D54 EA8       # any words, as they came
  readall 12h                      # no answer line: no words came back

12h and 0x12 are hexadecimal. Registers, values, masks and seeds of more than one
digit are marked so: 12 alone is a mistake. Devices and their counts are decimal:
12 is twelve; the numbers after 'answer bytes' and 'answer words' are hexadecimal.
A long answer may go on over several lines of one form. Upper and lower case are
the same. Words, their bits and the bytes of a file count from 0.

status: 0 done; 1 not a plan or not a job file, or no such entry, or not read or
written, with the reason; 2 not called like this; 4 for 'why', where the program
explain could not be proved, built or run
"""

Ask = namedtuple('Ask', 'kind register value mask device seed')
KINDS = ('helloall', 'writeall', 'writedevice', 'readall', 'readdevice')
HELLOALL, WRITEALL, WRITEDEVICE, READALL, READDEVICE = range(5)
WRITES = (WRITEALL, WRITEDEVICE)
# What each kind's line says after its name. These are also the only fields of
# an entry, besides a write's mask and the seed, that may be other than 0.
PARTS = ((), ('register', '=', 'value'), ('device', 'register', '=', 'value'),
         ('register',), ('device', 'register'))
DEVICES_MOST, WORDS_MOST, FILE_MOST, ALL_BITS = 32, 140, 65536, 0xFFFF
FORMS = {'right': 32, 'bytes': 69, 'words': 140}  # of answers, with what fills 140 words
TEXT_MOST = 1 << 22  # ours: many times what `show` prints for the longest file
# The rows of data sheet 004's register table, each with the address it begins at.
NAMED = (
    (0x00, 'VERSION ADDRESS STATUS FMEA1 ALRTCELL ALRTOVCELL'),
    (0x07, 'ALRTUVCELL ALRTBALSW'), (0x0A, 'MINMAXCELL FMEA2'), (0x0D, 'ID1 ID2'),
    (0x10, 'DEVCFG1 GPIO MEASUREEN SCANCTRL ALRTOVEN ALRTUVEN'),
    (0x18, 'TIMERCFG ACQCFG BALSWEN DEVCFG2 BALDIAGCFG BALSWDCHG TOPCELL'),
    (0x20, 'CELL1 CELL2 CELL3 CELL4 CELL5 CELL6 CELL7 CELL8 CELL9 CELL10 CELL11 CELL12'),
    (0x2C, 'BLOCK AIN1 AIN2 TOTAL'), (0x40, 'OVTHCLR'), (0x42, 'OVTHSET'),
    (0x44, 'UVTHCLR'), (0x46, 'UVTHSET'), (0x48, 'MSMTCH AINOT AINUT'),
    (0x4B, 'BALSHRTTHR BALLOWTHR BALHIGHTHR'), (0x50, 'DIAG DIAGCFG CTSTCFG'),
    (0x57, 'ADCTEST1A ADCTEST1B ADCTEST2A ADCTEST2B'))
NAMES = {first + i: name for first, row in NAMED for i, name in enumerate(row.split())}
NUMBERS = {name.lower(): address for address, name in NAMES.items()}
INPUT, OUTPUT, COMPLAINTS = 3, 1, 2  # descriptors
HEADER = struct.Struct('<3sHBB')  # mark, version, n, alive
# By the file's version: what an entry has before its words, and where each stands.
ENTRY = {1: struct.Struct('<BBHBBH'), 2: struct.Struct('<BBHHBBH')}
PLACES = {1: dict(kind=0, register=1, value=2, device=4, seed=5, words=6),
          2: dict(kind=0, register=1, value=2, mask=4, device=6, seed=7, words=8)}

# What explain takes before the words: the question's size, then the question in the
# order of the C calls: kind, n, alive, register, value, device, seed.
ASKED = struct.Struct('<BBBBBHBB')
# What explain prints of an accepted line, and how it begins for any other.
ACCEPTED, TURNED_AWAY = b'accepted\n', b'turned away: '

class Wrong(Exception):
    """Where something is wrong, what it is, and what would be right."""

class NoProgram(Exception):
    """The program explain could not be proved, built or run."""

def asked(kind, **fields):
    """What is not said is 0, but for a write's mask, which is all bits."""
    unsaid = dict.fromkeys(Ask._fields, 0) | {'mask': ALL_BITS if kind in WRITES else 0}
    return Ask(**unsaid | fields | {'kind': kind})

# The line: characters, bytes and the PEC
def character(data):
    """Start bit 0, the data bits lowest first, even parity, two stop bits."""
    return data << 1 | bin(data).count('1') % 2 << 9 | 0xC00

PREAMBLE, STOP = character(0x15), character(0x54)
# Each bit is followed by its complement: a 1 is the pair 01b, a 0 is 10b.
NIBBLES = [character(sum((1 if nibble >> i & 1 else 2) << 2 * i for i in range(4)))
           for nibble in range(16)]

def pec(data):
    """x^8+x^6+x^3+x^2+1, bits lowest first: constant B2h, start 0."""
    rest = 0
    for byte in data:
        rest ^= byte
        for _ in range(8):
            rest = rest >> 1 ^ (0xB2 if rest & 1 else 0)
    return rest

def line_of(data):
    """Preamble, two characters a byte with the low nibble first, stop."""
    return [PREAMBLE, *(NIBBLES[n] for b in data for n in (b & 15, b >> 4)), STOP]

def bytes_on(words):
    """The bytes whose line this is, or None where it is the line of no bytes."""
    if not set(words[1:-1]) <= set(NIBBLES):
        return None
    nibbles = [NIBBLES.index(word) for word in words[1:-1]]
    data = [low | high << 4 for low, high in zip(nibbles[::2], nibbles[1::2])]
    return data if line_of(data) == words else None

def right_bytes(ask, values, n, alive):
    """The table's answer bytes; the values come in address order."""
    if ask.kind == HELLOALL:
        return [0x57, 0x00, *values]
    first = (None, 2, ask.device * 8 + 4, 3, ask.device * 8 + 5)[ask.kind]
    reads = ask.kind in (READALL, READDEVICE)
    data = [first, ask.register]
    for value in reversed(values) if reads else [ask.value]:
        data += [value & 0xFF, value >> 8]  # the highest address comes first
    data += [0x00] if reads else []  # the check byte
    data += [pec(data)]
    acting = n if ask.kind in (WRITEALL, READALL) else 1
    return data + ([(ask.seed + acting) % 256] if alive else [])

# From words to a job file
def fail(line, text):
    raise Wrong(f'line {line}: {text}')

def quote(token):
    """The token, short and printable whatever bytes it was."""
    return ascii(token if len(token) <= 30 else token[:27] + '...')

DECIMAL = ('device', 'device count', 'count')  # data sheet 004 counts these so

def number(line, token, what, most, least=0, bare=False):
    """12h or 0x12; 18 too where devices are counted, elsewhere one digit alone;
    where `bare`, hexadecimal with or without a mark."""
    counts = what in DECIMAL
    if not counts and not bare and re.fullmatch('[0-9]{2,5}', token):
        fail(line, f'{what} {quote(token)} is not marked hexadecimal: '
                   f'write {token}h, or {int(token):02X}h if {token} is decimal')
    form = '0x[0-9a-f]+|[0-9a-f]+h|[0-9]' + ('+' if counts else '')
    if not re.fullmatch('(0x)?[0-9a-f]+h?' if bare else form, token):
        right = ('hexadecimal digits, such as 0F' if bare else
                 '0Fh, 0x0F or 15' if counts else '0Fh or 0x0F')
        if what == 'register':
            right += ', or its name in data sheet 004, such as MEASUREEN'
        fail(line, f'{quote(token)} is no number for a {what}: write {right}')
    digits = token.removeprefix('0x').removesuffix('h').lstrip('0') or '0'
    base = 10 if token.isdigit() and not bare else 16
    value = int(digits, base) if len(digits) <= 8 else most + 1
    if not least <= value <= most:
        top = f'{most} ({most:X}h)' if counts else f'{most:X}h'
        fail(line, f'{what} {quote(token)} is not in {least} to {top}')
    return value

def statements(text):
    """(line number, words) of each line that says something."""
    text = text.removeprefix(b'\xef\xbb\xbf')  # some editors begin a file so
    lines = text.replace(b'\r\n', b'\n').replace(b'\r', b'\n').split(b'\n')
    for line, raw in enumerate(lines, 1):
        words = raw.split(b'#', 1)[0].lower().replace(b'=', b' = ').split()
        if words:
            yield line, [word.decode('latin-1') for word in words]  # takes any byte

def chain(line, tokens):
    right = "'chain 2', 'chain 2 alive', 'chain 2 version 2' or 'chain 2 alive version 2', with 1 to 32 devices"
    if tokens[:1] != ['chain']:
        what = quote(tokens[0]) + ' before the' if tokens else 'no'
        fail(line, f'{what} chain line: begin with {right}')
    alive, version = tokens[2:], '1'
    if alive[-2:-1] == ['version']:
        *alive, _, version = alive
    if len(tokens) < 2 or alive not in ([], ['alive']):
        fail(line, f'the chain line is written {right}')
    if version not in map(str, ENTRY):
        fail(line, f'version {quote(version)} is not 1 or 2')
    n = number(line, tokens[1], 'device count', DEVICES_MOST, 1)
    return n, bool(alive), int(version)

def question(line, tokens, alive, version):
    name, *rest = tokens
    if name not in KINDS:
        right = 'helloall, writeall, writedevice, readall or readdevice'
        fail(line, f'{quote(name)} is no question: {right}' if name != 'chain' else
             'a second chain line: a job file has one chain, named first')
    kind, fields = KINDS.index(name), {}
    if 'seed' in rest and (kind == HELLOALL or not alive):
        fail(line, "helloall has no alive byte: take 'seed' away" if kind == HELLOALL else
             "a seed, but alive is off: take it away, or put 'alive' on the chain line")
    if 'mask' in rest and (kind not in WRITES or 'mask' not in PLACES[version]):
        fail(line, f'a mask, but {name} writes nothing: take it away'
             if kind not in WRITES else 'a mask, but in version 1: take it away, '
             "or put 'version 2' last on the chain line")
    for part, least, most in (('seed', 0, 0xFF), ('mask', 1, ALL_BITS)):
        if rest[-2:-1] == [part]:
            *rest, _, token = rest
            fields[part] = number(line, token, part, most, least)
    if [token == '=' for token in rest] != [part == '=' for part in PARTS[kind]]:
        sample = question_text(Ask(kind, 0x12, 0x000F, 0x0FFF, 1, 0xF0), alive, version)
        fail(line, f"{name} is written like '{sample}'")
    for part, token in zip(PARTS[kind], rest):
        if part != '=':
            most = 0xFFFF if part == 'value' else 0xFF
            named = part == 'register' and token in NUMBERS
            fields[part] = NUMBERS[token] if named else number(line, token, part, most)
    return asked(kind, **fields)

def right_answer(line, items, ask, n, alive):
    """`line` is where the answer ends; each item brings its own."""
    wanted = (1, 0, 0, n, 1)[ask.kind]
    if len(items) != wanted:
        what = ('one count', 'no value', 'no value',
                f'{n} values, address 0 first', 'one value')[ask.kind]
        fail(items[wanted][0] if len(items) > wanted else line,
             f'a right answer to {KINDS[ask.kind]} takes {what}; here: {len(items)}')
    if ask.device >= DEVICES_MOST:
        fail(line, f'device {ask.device} has no right answer, for 31 is the highest '
                   "address: use 'answer bytes' or 'answer words'")
    limits = ('count', DEVICES_MOST, 1) if ask.kind == HELLOALL else ('value', 0xFFFF)
    values = [number(*item, *limits) for item in items]
    return line_of(right_bytes(ask, values, n, alive))

def bytes_answer(items):
    data = []
    for item in items:
        byte = pec(data) if item[1] == 'pec' else number(*item, 'byte', 0xFF, bare=True)
        data.append(byte)
    return line_of(data)

def turn_over(words, line, token):
    match = re.fullmatch('([0-9]{1,3})[.]([0-9]{1,2})', token)
    if not match:
        fail(line, f'{quote(token)} is no bit of a word: write word.bit, such as 5.3')
    place, bit = map(int, match.groups())
    if place >= len(words) or bit > 15:
        there = f'words 0 to {len(words) - 1}' if words else 'no words'
        fail(line, f'{token} is not in this answer: it has {there}, a word bits 0 to 15')
    words[place] ^= 1 << bit

def answer(lines, ask, n, alive):
    """The words that the answer and turn lines under a question give."""
    last, form, items, turns = 0, 'words', [], []
    for line, (head, *rest) in lines:
        if head == 'turn':
            turns += [(line, token) for token in rest or ['']]
            continue
        if not rest or rest[0] not in FORMS:
            fail(line, "'answer' goes on with 'right', 'bytes' or 'words'")
        if last and rest[0] != form:
            fail(line, f"'answer {rest[0]}' after 'answer {form}': "
                       'the lines of one answer have one form')
        last, form = line, rest[0]
        items += [(line, token) for token in rest[1:]]
        if len(items) > FORMS[form]:
            fail(line, f'over {FORMS[form]} numbers: an answer has 140 words at the most')
    if form == 'right':
        words = right_answer(last, items, ask, n, alive)
    elif form == 'bytes':
        words = bytes_answer(items)
    else:
        words = [number(*item, 'word', 0xFFFF, bare=True) for item in items]
    for line, token in turns:
        turn_over(words, line, token)
    return words

def entry_bytes(ask, words, version):
    fields = ask._asdict() | {'words': len(words)}
    head = ENTRY[version].pack(*(fields[name] for name in PLACES[version]))
    return head + struct.pack(f'<{len(words)}H', *words)

def write(text):
    """The job file's bytes, and a warning for each device beyond the chain."""
    if len(text) > TEXT_MOST:
        fail(text.count(b'\n') + 1, f'the text is over {TEXT_MOST:,} bytes, the most')
    first, *rest = [*statements(text)] or [(1, [])]
    n, alive, version = chain(*first)
    entries = []
    for line, tokens in rest:
        if tokens[0] not in ('answer', 'turn'):
            entries.append((line, tokens, []))
        elif entries:
            entries[-1][2].append((line, tokens))
        else:
            fail(line, f"'{tokens[0]}' before any question: it stands under its question")
    out, warnings = HEADER.pack(b'BMC', version, n, alive), ''
    for i, (line, tokens, below) in enumerate(entries, 1):
        ask = question(line, tokens, alive, version)
        words = answer(below, ask, n, alive)
        out += entry_bytes(ask, words, version)
        if len(out) > FILE_MOST:
            fail(line, 'with this question the file is over 65,536 bytes, the most')
        if ask.device >= n:
            warnings += (f'job: line {line}: warning: device {ask.device} is not in the '
                         f'chain (0 to {n - 1}): the certificate will say E {i} 1\n')
    return out, warnings

# From a job file to words
def bad(at, text, i=0):
    raise Wrong(f'byte {at}' + (f' (entry {i})' if i else '') + f': {text}')

def header(data):
    if len(data) > FILE_MOST:
        bad(FILE_MOST, 'the file goes on here, and 65,536 bytes are the most')
    if data[:3] != b'BMC'[:len(data)]:
        bad(0, 'the file does not begin with the mark BMC (42h 4Dh 43h)')
    if len(data) < HEADER.size:
        bad(len(data), f'the file ends inside its header of {HEADER.size} bytes')
    _, version, n, alive = HEADER.unpack_from(data)
    for at, good, text in ((3, version in ENTRY, f'version {version} is not 1 or 2'),
                           (5, 1 <= n <= DEVICES_MOST, f'n {n} is not in 1 to 32'),
                           (6, alive <= 1, f'alive {alive} is not 0 or 1')):
        if not good:
            bad(at, text)
    return n, alive, version

def entry(data, at, i, alive, version):
    """The question and the words of entry i, which begins at byte `at`."""
    if data[at] >= len(KINDS):
        bad(at, f'kind {data[at]} is above 4', i)
    start, places = at + ENTRY[version].size, PLACES[version]
    if start > len(data):
        bad(len(data), f'the file ends inside the entry begun at byte {at}', i)
    fields = dict(zip(places, ENTRY[version].unpack_from(data, at)))
    count = fields.pop('words')
    ask = asked(**fields)
    used = ('kind', *PARTS[ask.kind], *(['mask'] if ask.kind in WRITES else []),
            *(['seed'] if alive and ask.kind != HELLOALL else []))
    for name, found in fields.items():
        if found and name not in used:
            off = ' with alive off' if name == 'seed' and not alive else ''
            bad(at + places[name], f'{name} {found:X}h is not 0, but '
                                   f'{KINDS[ask.kind]} uses no {name}{off}', i)
    if ask.kind in WRITES and not ask.mask:
        bad(at + places['mask'], 'mask 0, but a write is to show one bit at least', i)
    if count > WORDS_MOST:
        bad(at + places['words'], f'{count} words are over 140', i)
    if start + 2 * count > len(data):
        bad(len(data), f'the file ends inside the words: {count} from byte {start} on', i)
    return ask, list(struct.unpack_from(f'<{count}H', data, start))

def question_text(ask, alive, version):
    text = {'register': f'{ask.register:02X}h', 'value': f'{ask.value:04X}h',
            'device': str(ask.device), '=': '='}
    masked = ask.kind in WRITES and 'mask' in PLACES[version]
    mask = ['mask', f'{ask.mask:04X}h'] if masked else []
    seed = ['seed', f'{ask.seed:02X}h'] if alive and ask.kind != HELLOALL else []
    return ' '.join([KINDS[ask.kind], *(text[part] for part in PARTS[ask.kind]), *mask, *seed])

def remark(ask, i):
    name = NAMES.get(ask.register) if 'register' in PARTS[ask.kind] else None
    return f'  # entry {i}' + (f': {name}' if name else '')

def answer_text(words):
    """At most 16 words a line. Where the words are the line of some bytes, each
    line holds seven of them, besides preamble and stop, and names them."""
    text = [f'{word:03X}' for word in words]
    data = bytes_on(words)
    if not data:
        cuts = range(0, len(text), 16)
        return ['  answer words ' + ' '.join(text[cut:cut + 16]) for cut in cuts]
    lines = []
    for k in range(0, len(data), 7):
        start, end = 2 * k + 1 if k else 0, 2 * k + 15 if k + 7 < len(data) else None
        named = ' '.join(f'{byte:02X}' for byte in data[k:k + 7])
        lines.append(f"  answer words {' '.join(text[start:end]):63}  # {named}")
    return lines

def opened(data):
    """The header of a job file, and each entry's question and words."""
    n, alive, version = header(data)
    entries, at = [], HEADER.size
    while at < len(data):
        entries.append(entry(data, at, len(entries) + 1, alive, version))
        at += ENTRY[version].size + 2 * len(entries[-1][1])
    return n, alive, version, entries

def show(data):
    """The text that `write` turns into these bytes again; there are no warnings."""
    n, alive, version, entries = opened(data)
    lines = [f'chain {n}' + ' alive' * alive + (f' version {version}' if version > 1 else '')]
    for i, (ask, words) in enumerate(entries, 1):
        lines += [question_text(ask, alive, version) + remark(ask, i), *answer_text(words)]
    return ('\n'.join(lines) + '\n').encode(), ''

# Why an entry was turned away
def asked_of(ask, words, n, alive):
    """A question and the words that came back, as explain takes them."""
    front = ASKED.pack(ASKED.size - 1, ask.kind, n, alive, ask.register, ask.value,
                       ask.device, ask.seed)
    return front + struct.pack(f'<{len(words)}H', *words)

def ask_entry(data, named):
    """Entry `named`, a number in decimal, as explain takes it."""
    n, alive, _, entries = opened(data)
    for i, (ask, words) in enumerate(entries, 1):
        if str(i) == named.lstrip('0'):
            return asked_of(ask, words, n, alive), ''
    there = f'entries 1 to {len(entries)}' if entries else 'no entries'
    raise Wrong(f'there is no entry {quote(named)[1:-1]}: the file has {there}')

# Proves and builds the program where that is not yet done, and prints the words
# that run it, each with a zero byte behind it.
BUILD = r'''tools/prove check explain > /dev/null && words=$(./run --command explain) &&
eval "words=($words)" && printf '%s\0' "${words[@]}"'''

def program():
    """The words that run explain. What went wrong was said on standard error."""
    tree = os.path.dirname(os.path.dirname(os.path.abspath(__file__)))
    built = subprocess.run(['bash', '-c', BUILD], cwd=tree, stdin=subprocess.DEVNULL,
                           stdout=subprocess.PIPE, check=False)
    if built.returncode != 0:
        raise NoProgram
    return built.stdout.split(b'\0')[:-1]

def explained(words_that_run, data, i):
    """What explain prints of entry i; whatever is no explanation is its failure."""
    try:
        done = subprocess.run(words_that_run, input=data, stdout=subprocess.PIPE, check=False)
    except OSError as error:
        raise NoProgram(f'explain could not be started: {error.strerror}') from None
    if done.returncode != 0:
        raise NoProgram(f'entry {i}: explain ended with status {done.returncode}')
    told = done.stdout
    if told != ACCEPTED and not (told.startswith(TURNED_AWAY) and told.endswith(b'\n')):
        printed = quote(told.decode('latin-1'))
        raise NoProgram(f'entry {i}: explain failed: it printed {printed}, which is neither '
                        "'accepted' nor lines that begin with 'turned away: '")
    return told

def why(data):
    """What explain says of each entry that was turned away."""
    n, alive, _, entries = opened(data)
    words_that_run, out = program() if entries else [], b''
    for i, (ask, words) in enumerate(entries, 1):
        told = explained(words_that_run, asked_of(ask, words, n, alive), i)
        if told != ACCEPTED:
            out += b'entry %d\n' % i + re.sub(rb'(?m)^(?=.)', b'  ', told)
    return out, ''

# The program. It reads and writes by descriptor: no buffer is left that could
# fail after the end, and a closed stream is an error like any other.
def get(most):
    """Standard input, but no more than one byte above `most`."""
    data = b''
    try:
        while len(data) <= most and (part := os.read(INPUT, most + 1 - len(data))):
            data += part
    except OSError as error:
        raise Wrong(f'standard input: {error.strerror}') from None
    return data

def put(descriptor, data):
    """Whether all of it could be written; a reader that left needs no message."""
    try:
        while data:
            data = data[os.write(descriptor, data):]
    except OSError as error:
        if descriptor == OUTPUT and not isinstance(error, BrokenPipeError):
            put(COMPLAINTS, f'job: standard output: {error.strerror}\n'.encode())
    return not data

def main(arguments):
    if arguments in (['--help'], ['-h']):
        return 0 if put(OUTPUT, USAGE.encode()) else 1
    work = {('write',): write, ('show',): show, ('why',): why}.get(tuple(arguments))
    if arguments[:1] == ['ask'] and re.fullmatch('[0-9]+', ' '.join(arguments[1:])):
        work = lambda data: ask_entry(data, arguments[1])
    if work is None:
        said = ' '.join(quote(word) for word in arguments) or 'nothing'
        put(COMPLAINTS, "job: 'write', 'show', 'why', 'ask' with an entry's number or "
                        f"'--help' is wanted, and here is {said}\n".encode())
        return 2
    try:
        out, warnings = work(get(TEXT_MOST if work is write else FILE_MOST))
    except Wrong as wrong:
        put(COMPLAINTS, f'job: {wrong}\n'.encode())
        return 1
    except NoProgram as wrong:
        put(COMPLAINTS, f'job: {wrong}\n'.encode() if wrong.args else b'')
        return 4
    put(COMPLAINTS, warnings.encode())
    return 0 if put(OUTPUT, out) else 1

if __name__ == '__main__':
    try:
        sys.exit(main(sys.argv[1:]))
    except KeyboardInterrupt:
        sys.exit(130)
