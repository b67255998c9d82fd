"""Writes the table of single items that the program `itemtable` reads and writes, and what it has to print.

    python3 model/make_items.py crates/itemtable

The answers come from model.py and from Python's own conversions. The table has every first byte, every
format at its edges, whole and cut short, the examples of RFC 3629, and the written forms at their edges.
"""

import struct
import sys

import model

TARGETS = {'u8': model.U8, 'u32': model.U32, 'u64': model.U64, 'i32': model.I32, 'i64': model.I64}
KINDS = ['u8', 'u32', 'u64', 'i32', 'i64', 'double', 'text', 'bytes', 'array2', 'array3', 'map2', 'map3', 'values', 'truth', 'null']


def read(kind, data):
    reader = model.Reader(data)
    try:
        if kind in TARGETS:
            said = str(reader.integer(TARGETS[kind]))
        elif kind == 'double':
            said = '%x' % reader.double()
        elif kind in ('text', 'bytes'):
            content = reader.text() if kind == 'text' else reader.part()
            said = 'from %d length %d' % (reader.at - len(content), len(content))
        elif kind.startswith('array'):
            said = str(reader.plain_length(model.ARRAY_FORMS, int(kind[-1])))
        elif kind.startswith('map'):
            said = str(reader.plain_length(model.MAP_FORMS, int(kind[-1])))
        elif kind == 'values':
            said = str(reader.length(model.MAP_FORMS, 3, 2, 4))
        elif kind == 'truth':
            said = str(int(reader.truth()))
        else:
            said = str(int(reader.null()))
        return '%s next %d' % (said, reader.at)
    except model.Fault as fault:
        return 'fault %d place %d next 0' % (fault.cause, fault.place)


def integers():
    edges = [0, 1, 31, 32, 33, 127, 128, 129, 255, 256, 257, 32767, 32768, 65535, 65536, 2**31 - 1, 2**31, 2**32 - 1, 2**32,
             2**53 - 1, 2**53, 2**53 + 1, 2**53 + 3, 2**54 + 2, 2**54 + 6, 2**63 - 513, 2**63 - 512, 2**63 - 1, 2**63, 2**64 - 1025, 2**64 - 1024, 2**64 - 1]
    for n in edges:
        if n < 2**64:
            yield n
        if n <= 2**63:
            yield -n
            yield -n - 1


def number_bytes():
    for n in integers():
        if -32 <= n < 128:
            yield struct.pack('>b', n)
        for first, form in ((0xCC, '>B'), (0xCD, '>H'), (0xCE, '>I'), (0xCF, '>Q'), (0xD0, '>b'), (0xD1, '>h'), (0xD2, '>i'), (0xD3, '>q')):
            try:
                yield bytes([first]) + struct.pack(form, n)
            except struct.error:
                pass
    for bits in (0, 1, 0x80000000, 0x80000001, 0x007FFFFF, 0x00800000, 0x3FC00000, 0x7F7FFFFF, 0x7F800000, 0xFF800000, 0x7F800001, 0xFF800001,
                 0x7FC00000, 0x7FC00001, 0xFFFFFFFF, 0x7FA00000):
        yield b'\xCA' + struct.pack('>I', bits)
    for bits in (0, 1, 0x7FF0000000000000, 0x7FF0000000000001, 0xFFF8000000000000, 0x7FFFFFFFFFFFFFFF, 0x3FF8000000000000, 2**64 - 1):
        yield b'\xCB' + struct.pack('>Q', bits)


TEXTS = [b'', b'a', 'A≢Α.'.encode(), '한국어'.encode(), '日本語'.encode(), b'\xEF\xBB\xBF' + '𣎴'.encode(), 'Fläche'.encode(),
         b'\x7F', b'\x80', b'\xBF', b'\xC0\x80', b'\xC1\xBF', b'\xC2\x80', b'\xC2', b'\xDF\xBF', b'\xE0\x80\x80', b'\xE0\x9F\xBF', b'\xE0\xA0\x80', b'\xED\x9F\xBF',
         b'\xED\xA0\x80', b'\xED\xBF\xBF', b'\xEE\x80\x80', b'\xEF\xBF\xBF', b'\xF0\x80\x80\x80', b'\xF0\x8F\xBF\xBF', b'\xF0\x90\x80\x80', b'\xF4\x8F\xBF\xBF',
         b'\xF4\x90\x80\x80', b'\xF5\x80\x80\x80', b'\xFF', b'\xE2\x82', b'\xF0\x9F\x8E', b'a\x80', b'\xE2\x28\xA1', b'x' * 31, b'x' * 32, b'x' * 255, b'x' * 256]


def text_bytes():
    for content in TEXTS:
        length = len(content)
        if length < 32:
            yield bytes([0xA0 + length]) + content
        if length < 256:
            yield bytes([0xD9, length]) + content
            yield bytes([0xC4, length]) + content
        yield b'\xDA' + struct.pack('>H', length) + content
        yield b'\xDB' + struct.pack('>I', length) + content
        yield b'\xC5' + struct.pack('>H', length) + content
        yield b'\xC6' + struct.pack('>I', length) + content
        yield b'\xC6' + struct.pack('>I', length + 1) + content
        yield b'\xDB' + struct.pack('>I', length + 1) + content


def length_bytes():
    for n in (0, 1, 15, 16, 255, 256, 65535, 65536, 2**32 - 1):
        if n < 16:
            yield bytes([0x80 + n])
            yield bytes([0x90 + n])
        if n < 65536:
            yield b'\xDC' + struct.pack('>H', n)
            yield b'\xDE' + struct.pack('>H', n)
        yield b'\xDD' + struct.pack('>I', n)
        yield b'\xDF' + struct.pack('>I', n)


def reads():
    for kind in KINDS:
        yield kind, b''
        for first in range(256):
            yield kind, bytes([first]) + bytes(range(16))
    for first in range(256):
        for kind in ('i64', 'text', 'bytes', 'values', 'truth'):
            yield kind, bytes([first])
    for data in number_bytes():
        for kind in list(TARGETS) + ['double']:
            yield kind, data
        yield 'double', data[:-1]
    for data in text_bytes():
        yield 'text', data
        yield 'bytes', data + b'\x00'
        for cut in range(1, min(len(data), 7)):
            yield 'text', data[:cut]
            yield 'bytes', data[:cut]
    for data in length_bytes():
        for kind in ('array2', 'array3', 'map2', 'map3', 'values'):
            for cut in range(1, len(data) + 1):
                yield kind, data[:cut]


def writes():
    for n in integers():
        if n >= 0:
            yield 'unsigned', n, model.put_integer(n)
            yield 'u64', n, model.put_u64(n)
            yield 'double', n, model.put_double(n)
        if -2**63 <= n < 2**63:
            yield 'integer', n, model.put_integer(n)
            yield 'i64', n, model.put_i64(n)
        if 0 <= n < 2**32:
            yield 'u32', n, model.put_u32(n)
            for kind, forms in (('text', model.TEXT_FORMS), ('bytes', model.PART_FORMS), ('array', model.ARRAY_FORMS), ('map', model.MAP_FORMS)):
                yield kind, n, model.put_length(forms, n)
        if 0 <= n < 256:
            yield 'u8', n, model.put_u8(n)
    yield 'truth', 0, b'\xC2'
    yield 'truth', 1, b'\xC3'


def main(folder):
    lines = [('read %s %s' % (kind, data.hex()), read(kind, data)) for kind, data in reads()]
    lines += [('write %s %d' % (kind, n), data.hex()) for kind, n, data in writes()]
    lines = list(dict.fromkeys(lines))
    with open(folder + '/stdin', 'w') as file:
        file.writelines(line + '\n' for line, _ in lines)
    with open(folder + '/stdout', 'w') as file:
        file.writelines(line + '\n' for _, line in lines)


if __name__ == '__main__':
    main(sys.argv[1])
