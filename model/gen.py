"""Random payloads, valid and damaged. `rng` is a random.Random.

    random_payload_v04(rng), random_payload_v05(rng)    a valid payload, mostly 10 to 400 bytes
    damage(rng, data)                                   a damaged copy of a payload

From the shell: `gen.py v04 SEED COUNT` (or v05) prints COUNT payloads in hex, one per line;
a fourth word `damaged` damages each.
"""

import struct

# ---- items, in every form that holds them ----

def number_forms(n):
    forms = []
    if -32 <= n <= 127:
        forms.append(bytes([n & 0xFF]))
    for k in range(4):
        width = 1 << k
        if 0 <= n < 1 << 8 * width:
            forms.append(bytes([0xCC + k]) + n.to_bytes(width, 'big'))
        if -(1 << 8 * width - 1) <= n < 1 << 8 * width - 1:
            forms.append(bytes([0xD0 + k]) + n.to_bytes(width, 'big', signed=True))
    return forms


def length_forms(n, fix, fix_count, wide):
    forms = [bytes([fix + n])] if n < fix_count else []
    for marker, width in wide:
        if n < 1 << 8 * width:
            forms.append(bytes([marker]) + n.to_bytes(width, 'big'))
    return forms


def pick(rng, forms):
    """Mostly the first and shortest, often another."""
    return forms[0] if rng.random() < 0.6 else rng.choice(forms)


def number(rng, n):
    return pick(rng, number_forms(n))


def map_length(rng, n):
    return pick(rng, length_forms(n, 0x80, 16, ((0xDE, 2), (0xDF, 4))))


def array_length(rng, n):
    return pick(rng, length_forms(n, 0x90, 16, ((0xDC, 2), (0xDD, 4))))


def text(rng, content):
    return pick(rng, length_forms(len(content), 0xA0, 32, ((0xD9, 1), (0xDA, 2), (0xDB, 4)))) + content


def part(rng, content):
    return pick(rng, length_forms(len(content), 0, 0, ((0xC4, 1), (0xC5, 2), (0xC6, 4)))) + content


NULL = b'\xC0'

# ---- contents ----

def edge(rng, low, high):
    """An integer from low to high, small, at an edge of a form or of the range, or anywhere."""
    way = rng.randrange(4)
    if way == 0:
        n = rng.randrange(0, 10)
    elif way == 1:
        power = 1 << rng.choice((5, 7, 8, 15, 16, 31, 32, 53, 54, 63, 64))
        n = rng.choice((1, -1)) * power + rng.randrange(-2, 3)
    elif way == 2:
        n = rng.choice((low, low + 1, high - 1, high))
    else:
        n = rng.randrange(low, high + 1) >> rng.randrange(0, 64)
    return min(max(n, low), high)


def unsigned(rng, bits=64):
    return number(rng, edge(rng, 0, 2**bits - 1))


def signed(rng, bits=64):
    return number(rng, edge(rng, -2**(bits - 1), 2**(bits - 1) - 1))


def span_number(rng):
    """A span or parent id: few values, so that parents are found."""
    return number(rng, rng.randrange(0, 5)) if rng.random() < 0.6 else unsigned(rng)


CHARACTERS = ('a', 'b', 'v', '\x00', '\x7F', '\x80', 'é', '\u07FF', '\u0800', '\uD7FF', '\uE000',
              '€', '\uFFFF', '\U00010000', '🎹', '\U0010FFFF')
KEYS = (b'', b'a', b'b', b'voice', 'é'.encode(), b'type', b'values')


def characters(rng, most=6):
    count = rng.randrange(0, most)
    if rng.random() < 0.03:
        count = rng.choice((31, 32, 33))
    if rng.random() < 0.003:
        return b'n' * rng.choice((255, 256, 257, 65535, 65536))
    return ''.join(rng.choice(CHARACTERS) for _ in range(count)).encode()


def some_text(rng):
    return text(rng, characters(rng))


def key(rng):
    return text(rng, rng.choice(KEYS) if rng.random() < 0.8 else characters(rng))


def some_part(rng):
    return part(rng, bytes(rng.randrange(256) for _ in range(rng.randrange(0, 6))))


SINGLES = (0x00000000, 0x80000000, 0x00000001, 0x007FFFFF, 0x80400000, 0x00800000, 0x3FC00000,
           0x7F7FFFFF, 0x7F800000, 0xFF800000, 0x7F800001, 0xFF800001, 0x7FC00000, 0xFFFFFFFF,
           0x7FBFFFFF)
DOUBLES = (0, 1 << 63, 1, 0x000FFFFFFFFFFFFF, 0x3FF8000000000000, 0x7FEFFFFFFFFFFFFF,
           0x7FF0000000000000, 0xFFF0000000000000, 0x7FF0000000000001, 0xFFF4000000000000,
           0x7FF8000000000000, 0xFFFFFFFFFFFFFFFF)


def double(rng):
    way = rng.randrange(4)
    if way == 0:
        return unsigned(rng)
    if way == 1:
        return signed(rng)
    if way == 2:
        return b'\xCA' + struct.pack('>I', rng.choice(SINGLES + (rng.getrandbits(32),)))
    return b'\xCB' + struct.pack('>Q', rng.choice(DOUBLES + (rng.getrandbits(64),)))


def truth(rng):
    return rng.choice((b'\xC2', b'\xC3'))


# ---- v04 ----

def few(rng, most=4):
    """A count: often 0, 1 or 2, seldom above 15."""
    return 16 + rng.randrange(3) if rng.random() < 0.01 else rng.randrange(0, most)


def array(rng, items):
    return array_length(rng, len(items)) + b''.join(items)


def mapping(rng, pairs):
    return map_length(rng, len(pairs)) + b''.join(k + v for k, v in pairs)


def record(rng, fields, most, favoured=()):
    """A map of fields in random order, names repeated or left out."""
    choice = list(fields) + list(favoured)
    names = [rng.choice(choice) for _ in range(few(rng, most))]
    return mapping(rng, [(text(rng, name), fields[name](rng)) for name in names])


def nullable(reading):
    return lambda rng: NULL if rng.random() < 0.1 else reading(rng)


def string_map(rng):
    """meta, or a link's attributes: a null value drops its pair."""
    return mapping(rng, [(key(rng), nullable(some_text)(rng)) for _ in range(few(rng))])


def metrics(rng):
    return mapping(rng, [(key(rng), double(rng)) for _ in range(few(rng))])


def meta_struct(rng):
    return mapping(rng, [(key(rng), some_part(rng)) for _ in range(few(rng))])


def link(rng):
    return record(rng, {
        b'trace_id': unsigned, b'trace_id_high': unsigned, b'span_id': unsigned,
        b'attributes': string_map, b'tracestate': some_text,
        b'flags': lambda rng: unsigned(rng, 32)}, 5, (b'attributes',))


def event(rng):
    return record(rng, {
        b'time_unix_nano': unsigned, b'name': some_text, b'attributes': event_attributes}, 4,
        (b'attributes', b'attributes'))


def event_attributes(rng):
    return mapping(rng, [(key(rng), attribute(rng)) for _ in range(few(rng))])


SINGLE_VALUES = ((b'string_value', some_text), (b'bool_value', truth), (b'int_value', signed),
                 (b'double_value', double))


def typed(rng, kind, name, value):
    fields = [(text(rng, b'type'), number(rng, kind)), (text(rng, name), value)]
    rng.shuffle(fields)
    return mapping(rng, fields)


def single_value(rng, kind):
    name, reading = SINGLE_VALUES[kind]
    return typed(rng, kind, name, reading(rng))


def attribute(rng):
    kind = rng.choice((0, 1, 2, 3, 4, 4, 4))
    if kind < 4:
        return single_value(rng, kind)
    if rng.random() < 0.15:
        return typed(rng, 4, b'array_value', NULL)
    kind = rng.randrange(4)
    values = array(rng, [single_value(rng, kind) for _ in range(few(rng))])
    return typed(rng, 4, b'array_value', mapping(rng, [(text(rng, b'values'), values)]))


SPAN_FIELDS = {
    b'service': some_text, b'name': some_text, b'resource': some_text, b'type': some_text,
    b'trace_id': unsigned, b'span_id': span_number, b'parent_id': span_number,
    b'start': signed, b'duration': signed, b'error': lambda rng: signed(rng, 32),
    b'meta': string_map, b'metrics': metrics, b'meta_struct': meta_struct,
    b'span_links': lambda rng: array(rng, [link(rng) for _ in range(few(rng, 3))]),
    b'span_events': lambda rng: array(rng, [event(rng) for _ in range(few(rng, 3))])}
SPAN_FIELDS = {name: nullable(reading) for name, reading in SPAN_FIELDS.items()}


def behind(rng):
    """Bytes behind the last span, which no reading reads."""
    return rng.randbytes(rng.randrange(1, 4)) if rng.random() < 0.1 else b''


def sized(rng, make):
    """Mostly 10 to 400 bytes; one in twenty as it comes."""
    payload = make(rng)
    if rng.random() < 0.95:
        while not 10 <= len(payload) <= 400:
            payload = make(rng)
    return payload


NESTED = (b'span_links', b'span_events', b'span_events', b'span_events')


def random_payload_v04(rng):
    return sized(rng, any_payload_v04)


def any_payload_v04(rng):
    most = rng.choice((3, 6, 10))
    favoured = rng.choice(((), NESTED, NESTED * 6))

    def trace():
        spans = rng.choice((0, 1, 1, 1, 2, 3))
        return array(rng, [record(rng, SPAN_FIELDS, most, favoured) for _ in range(spans)])

    return array(rng, [trace() for _ in range(rng.choice((0, 1, 1, 1, 1, 1, 2, 2, 3)))]) + behind(rng)


# ---- v05 ----

def random_payload_v05(rng):
    return sized(rng, any_payload_v05)


def any_payload_v05(rng):
    words = few(rng, 6)
    dictionary = array(rng, [key(rng) for _ in range(words)])
    if words == 0:                                        # then no span can be written
        traces = [array(rng, []) for _ in range(few(rng))]
        return array(rng, [dictionary, array(rng, traces)]) + behind(rng)

    def index():
        return number(rng, rng.randrange(words))

    def span():
        return array(rng, [
            index(), index(), index(),
            unsigned(rng), span_number(rng), span_number(rng),
            signed(rng), signed(rng), signed(rng, 32),
            mapping(rng, [(index(), index()) for _ in range(few(rng))]),
            NULL if rng.random() < 0.1 else mapping(
                rng, [(index(), double(rng)) for _ in range(few(rng))]),
            index()])

    traces = [array(rng, [span() for _ in range(few(rng, 3))]) for _ in range(few(rng))]
    return array(rng, [dictionary, array(rng, traces)]) + behind(rng)


# ---- damage ----

def item_places(data):
    """[(place, place behind)] of the items of whole MessagePack, nested ones too, from the left;
    a map's or array's run is its header alone. Stops where the data are not whole."""
    places, at = [], 0
    while at < len(data):
        marker = data[at]
        width = content = 0
        if 0xA0 <= marker <= 0xBF:
            content = marker - 0xA0
        elif marker in (0xC4, 0xC5, 0xC6, 0xD9, 0xDA, 0xDB):
            width = 1 << (marker - 0xC4 if marker < 0xD0 else marker - 0xD9)
            content = int.from_bytes(data[at + 1:at + 1 + width], 'big')
        elif marker in (0xDC, 0xDE):
            width = 2
        elif marker in (0xDD, 0xDF):
            width = 4
        elif 0xCA <= marker <= 0xD3:
            width = {0xCA: 4, 0xCB: 8}.get(marker) or 1 << (marker & 3)
        end = at + 1 + width + content
        if end > len(data):
            break
        places.append((at, end))
        at = end
    return places


# One item of every kind, and some that fail as numbers, texts or lengths.
OTHER_ITEMS = (
    b'\x00', b'\x01', b'\x02', b'\x03', b'\x04', b'\x05', b'\x7F', b'\xFF', b'\xE0', b'\x80',
    b'\x81', b'\x82', b'\x83', b'\x90', b'\x91', b'\x92', b'\x9C', b'\xA0', b'\xA1a', b'\xA1\xFF',
    b'\xA3\xED\xA0\x80', b'\xA2\xC0\x80', b'\xA4\xF4\x90\x80\x80', b'\xA1\xC3', b'\xBF', b'\xC0',
    b'\xC1', b'\xC2', b'\xC3', b'\xC4\x00', b'\xC4\x01a', b'\xC5\x00\x00', b'\xC6\xFF\xFF\xFF\xFF',
    b'\xC7\x00\x01', b'\xC8\x00\x00\x01', b'\xC9\x00\x00\x00\x00\x01', b'\xCA\x00\x00\x00\x00',
    b'\xCA\x7F\x80\x00\x01', b'\xCB' + bytes(8), b'\xCC\xFF', b'\xCD\x01\x00',
    b'\xCE\x80\x00\x00\x00', b'\xCE\xFF\xFF\xFF\xFF', b'\xCF' + b'\xFF' * 8,
    b'\xCF\x7F' + b'\xFF' * 7, b'\xCF\x80' + bytes(7), b'\xCF\x00\x00\x00\x01\x00\x00\x00\x00',
    b'\xD0\x80', b'\xD1\xFF\xFF', b'\xD2\x80\x00\x00\x00', b'\xD2\x00\x00\x00\x05',
    b'\xD3\x80' + bytes(7), b'\xD3' + bytes(7) + b'\x05', b'\xD3\xFF\xFF\xFF\xFF\x7F\xFF\xFF\xFF',
    b'\xD4\x01a', b'\xD5\x01aa', b'\xD6\x01aaaa', b'\xD7\x01' + b'a' * 8, b'\xD8\x01' + b'a' * 16,
    b'\xD9\x00', b'\xD9\x01a', b'\xDA\x00\x01a', b'\xDB\x00\x00\x00\x01a', b'\xDB\xFF\xFF\xFF\xFF',
    b'\xDC\x00\x00', b'\xDC\x00\x02', b'\xDD\xFF\xFF\xFF\xFF', b'\xDD\x00\x00\x00\x01',
    b'\xDE\x00\x00', b'\xDE\x00\x02', b'\xDF\xFF\xFF\xFF\xFF', b'\xDF\x00\x00\x00\x01',
    b'\xA4type', b'\xA6values', b'\xACstring_value', b'\xAAbool_value', b'\xA9int_value',
    b'\xACdouble_value', b'\xABarray_value', b'\xA4name', b'\xA7span_id', b'\xAAattributes',
    b'\xA4nama', b'\xA5flags')
MARKERS = bytes((0x00, 0x7F, 0x80, 0x8F, 0x90, 0x9F, 0xA0, 0xBF)) + bytes(range(0xC0, 0xE1)) + b'\xFF'


def damage(rng, data):
    """One damage, sometimes two or three. It may by chance leave a payload that reads through."""
    for _ in range(rng.choice((1, 1, 1, 1, 2, 3))):
        data = damage_once(rng, data)
    return data


def damage_once(rng, data):
    if not data:
        return rng.randbytes(1)
    items = item_places(data) or [(0, len(data))]
    start, end = rng.choice(items)
    place = rng.randrange(len(data))
    way = rng.randrange(12)
    if way == 0:                                                        # cut anywhere
        return data[:place]
    if way == 1:                                                        # cut before an item
        return data[:start]
    if way == 2:                                                        # cut inside an item
        return data[:rng.randrange(start, end)]
    if way == 3:                                                        # flip a bit
        return data[:place] + bytes([data[place] ^ 1 << rng.randrange(8)]) + data[place + 1:]
    if way == 4:                                                        # another byte
        return data[:place] + rng.randbytes(1) + data[place + 1:]
    if way == 5:                                                        # another marker
        return data[:start] + bytes([rng.choice(MARKERS)]) + data[start + 1:]
    if way in (6, 7):                                                   # another item
        return data[:start] + rng.choice(OTHER_ITEMS) + data[end:]
    if way == 8:                                                        # an item more
        return data[:start] + rng.choice(OTHER_ITEMS) + data[start:]
    if way == 9:                                                        # bytes more
        return data[:place] + rng.randbytes(rng.randrange(1, 4)) + data[place:]
    if way == 10:                                                       # an item less
        return data[:start] + data[end:]
    other_start, other_end = rng.choice(items)                          # another item's copy
    return data[:start] + data[other_start:other_end] + data[end:]


if __name__ == '__main__':
    import random
    import sys
    make = {'v04': random_payload_v04, 'v05': random_payload_v05}[sys.argv[1]]
    seeded = random.Random(int(sys.argv[2]))
    for _ in range(int(sys.argv[3])):
        payload = make(seeded)
        print((damage(seeded, payload) if 'damaged' in sys.argv[4:] else payload).hex())
