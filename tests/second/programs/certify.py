"""What the certificate programs are compared on: the examples, each as version 2 too, cut, spoiled and joined, and bytes that are nothing. `job show`,
which finds the reason where a file is none, must agree with both on which those are."""
import pathlib
import re
import struct
import sys

TREE = pathlib.Path(__file__).parents[3]
sys.path.insert(0, str(TREE / 'tools'))
import job


def is_job_file(data):
    try:
        job.show(data)
    except job.Wrong:
        return False
    return True


def fault(data, printed):
    if is_job_file(data) != (printed != b'R 14\n'):
        return f'ours says {printed[:20]!r}, and job show says otherwise'
    return None


def masked(chance, data):
    """The file as version 2, with a mask for each write: all bits, one, or any."""
    def with_mask(said):
        mask = chance.choice((0xFFFF, 1 << chance.randrange(16), chance.randint(1, 0xFFFF)))
        return said[0] + b' mask %04Xh' % mask
    first, rest = job.show(data)[0].split(b'\n', 1)
    return job.write(first + b' version 2\n' + re.sub(rb'= \w+', with_mask, rest))[0]


def spoiled(chance, data):
    """The file with up to three bytes turned into others or cleared."""
    out = bytearray(data)
    for _ in range(chance.randint(1, 3)):
        out[chance.randrange(len(out))] = chance.choice((0, chance.randrange(256)))
    return bytes(out)


def joined(chance, files):
    """A file of one header and the entries of several, where their headers agree."""
    first = chance.choice(files)
    rest = b''.join(f[7:] for f in files if f[:7] == first[:7] and chance.random() < 0.7)
    return first + rest


def inputs(chance):
    files = [path.read_bytes() for path in sorted((TREE / 'examples').glob('*.bmc'))]
    files += [masked(chance, data) for data in files if data[3] == 1]
    yield b''
    yield files[0][:7]
    for data in files:
        yield data
        yield from (data[:cut] for cut in range(0, len(data), 5))
    for _ in range(1200):
        yield spoiled(chance, chance.choice(files))
    for _ in range(200):
        yield joined(chance, files)
    for _ in range(300):
        yield b'BMC' + bytes(chance.randrange(4) for _ in range(chance.randrange(60)))
    for _ in range(150):
        yield chance.randbytes(chance.randrange(300))
    for version in (0, 3, 256, 258, 65535):
        yield from (data[:3] + struct.pack('<H', version) + data[5:] for data in files)
    empty = struct.pack('<BBHBBH', 1, 0x12, 15, 0, 0, 0)
    for count in (8190, 8191, 8192):
        yield b'BMC\x01\x00\x20\x00' + empty * count
    empty = struct.pack('<BBHHBBH', 1, 0x12, 15, 7, 0, 0, 0)
    for count in (6551, 6552, 6553):
        yield b'BMC\x02\x00\x20\x00' + empty * count
    for size in (65535, 65536, 65537, 70000):
        yield chance.randbytes(size)
