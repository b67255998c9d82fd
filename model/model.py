"""An independent model of the reading of v04 and v05 payloads, and of the written form.

    read_v04(data), read_v05(data)
        ('ok', traces, consumed)  or  ('fault', cause, place, record, trace, span)
    encode_v04(traces)            the written form
    measure_v04(traces)           its length, without building it
    needs_v04(data), needs_v05(data)
        for a payload that reads through: {table: entries its reading makes}, tables 1 to 11
        (10 as a copying end would count it); None for a payload with a fault

A trace is a list of spans. A span is a dict, fields in the crate's order:
    service name resource type      bytes
    trace_id span_id parent_id start duration error     int
    meta         [(key, value)]     bytes, bytes; all pairs, in order of arrival
    metrics      [(key, bits)]      bytes, the double's 64 bits as an int
    meta_struct  [(key, value)]     bytes, bytes
    span_links   [{trace_id, trace_id_high, span_id, attributes, tracestate, flags}]
    span_events  [{time_unix_nano, name, attributes}]
Link attributes are [(key, bytes)]; event attributes are [(key, (type, value))] with type
0 text (bytes), 1 truth (0 or 1), 2 integer (int), 3 double (64 bits), 4 array (list of
(type, value)). Attributes stand in order of first arrival, each key once.

From the shell: `model.py v04 HEX` (or v05; without HEX the bytes come from standard input)
prints the load's answer on one line.
"""

# causes
CONVERSION, TYPE, FORMAT, IO, UTF8 = 1, 2, 3, 4, 5

# records
PAYLOAD, DICTIONARY, SPAN, LINK, EVENT, ATTRIBUTE, ELEMENT = range(7)

# tables
(TRACES, SPANS, PAIRS, METRICS, PARTS, LINKS, EVENTS, ATTRIBUTES, VALUES, TEXT_BYTES,
 ENTRIES) = range(1, 12)
LIMITS = {TRACES: 64, SPANS: 512, PAIRS: 4096, METRICS: 2048, PARTS: 512, LINKS: 512,
          EVENTS: 512, ATTRIBUTES: 2048, VALUES: 4096, TEXT_BYTES: 65536, ENTRIES: 2048}

# integer targets
U8, U32, U64 = (0, 2**8 - 1), (0, 2**32 - 1), (0, 2**64 - 1)
I32, I64 = (-2**31, 2**31 - 1), (-2**63, 2**63 - 1)

# types of attributes and their values
TEXT, TRUTH, INTEGER, DOUBLE, ARRAY = range(5)

# lengths: first fix marker, number of fix lengths, {marker: width of the length bytes}
MAP_FORMS = (0x80, 16, {0xDE: 2, 0xDF: 4})
ARRAY_FORMS = (0x90, 16, {0xDC: 2, 0xDD: 4})
TEXT_FORMS = (0xA0, 32, {0xD9: 1, 0xDA: 2, 0xDB: 4})
PART_FORMS = (0x00, 0, {0xC4: 1, 0xC5: 2, 0xC6: 4})

NULL = 0xC0


# ---- doubles, by integer arithmetic alone ----

def double_from_int(n):
    """The 64 bits of the double nearest to n, ties to even."""
    if n == 0:
        return 0
    sign, n = (1, -n) if n < 0 else (0, n)
    exponent = n.bit_length() - 1
    if exponent <= 52:
        significand = n << (52 - exponent)
    else:
        drop = exponent - 52
        significand, rest, half = n >> drop, n & ((1 << drop) - 1), 1 << (drop - 1)
        if rest > half or (rest == half and significand & 1):
            significand += 1
        if significand == 1 << 53:
            significand, exponent = 1 << 52, exponent + 1
    return sign << 63 | (exponent + 1023) << 52 | (significand - (1 << 52))


def double_from_single(bits):
    """The 64 bits of the double equal to a 32-bit float; a NaN keeps sign and payload, made quiet."""
    sign, exponent, fraction = bits >> 31, bits >> 23 & 0xFF, bits & 0x7FFFFF
    if exponent == 0xFF:
        quiet = 1 << 51 if fraction else 0
        return sign << 63 | 0x7FF << 52 | fraction << 29 | quiet
    if exponent == 0:
        if fraction == 0:
            return sign << 63
        top = fraction.bit_length() - 1          # value = fraction * 2**-149
        return sign << 63 | (top - 149 + 1023) << 52 | (fraction - (1 << top)) << (52 - top)
    return sign << 63 | (exponent - 127 + 1023) << 52 | fraction << 29


# ---- RFC 3629, section 4 ----

def is_utf8(text):
    i, n = 0, len(text)
    while i < n:
        lead = text[i]
        if lead <= 0x7F:
            i += 1
            continue
        if 0xC2 <= lead <= 0xDF:
            tails = ((0x80, 0xBF),)
        elif 0xE0 <= lead <= 0xEF:
            first = (0xA0, 0xBF) if lead == 0xE0 else (0x80, 0x9F) if lead == 0xED else (0x80, 0xBF)
            tails = (first, (0x80, 0xBF))
        elif 0xF0 <= lead <= 0xF4:
            first = (0x90, 0xBF) if lead == 0xF0 else (0x80, 0x8F) if lead == 0xF4 else (0x80, 0xBF)
            tails = (first, (0x80, 0xBF), (0x80, 0xBF))
        else:
            return False
        if i + 1 + len(tails) > n:
            return False
        for k, (low, high) in enumerate(tails):
            if not low <= text[i + 1 + k] <= high:
                return False
        i += 1 + len(tails)
    return True


# ---- reading ----

class Fault(Exception):
    def __init__(self, cause, place):
        self.cause, self.place = cause, place


class Reader:
    """Reads from the left. `record`, `trace` and `span` say where the reading stands."""

    def __init__(self, data):
        self.data, self.end, self.at = data, len(data), 0
        self.record, self.trace, self.span = PAYLOAD, 0, 0
        self.needs = dict.fromkeys(LIMITS, 0)

    # items

    def marker(self):
        """The next byte, not taken; None if nothing is left."""
        return self.data[self.at] if self.at < self.end else None

    def null(self):
        """Takes a null if one is next."""
        if self.marker() == NULL:
            self.at += 1
            return True
        return False

    def number_bytes(self, at, width):
        return int.from_bytes(self.data[at:at + width], 'big')

    def length(self, forms, nothing, other, short):
        """A length; the three causes are for nothing left, another marker, length bytes missing."""
        at, marker = self.at, self.marker()
        first, count, wide = forms
        if marker is None:
            raise Fault(nothing, at)
        if first <= marker < first + count:
            self.at = at + 1
            return marker - first
        if marker not in wide:
            raise Fault(other, at)
        width = wide[marker]
        if at + 1 + width > self.end:
            raise Fault(short, at)
        self.at = at + 1 + width
        return self.number_bytes(at + 1, width)

    def plain_length(self, forms, cause):
        return self.length(forms, cause, cause, cause)

    def content(self, start, length, cause):
        """The content of the item that began at `start`."""
        if length > self.end - self.at:
            raise Fault(cause, start)
        self.at += length
        return self.data[self.at - length:self.at]

    def text(self):
        start = self.at
        length = self.length(TEXT_FORMS, FORMAT, TYPE, CONVERSION)
        text = self.content(start, length, IO)
        if not is_utf8(text):
            raise Fault(UTF8, start)
        return text

    def part(self):
        start = self.at
        return self.content(start, self.plain_length(PART_FORMS, FORMAT), FORMAT)

    def truth(self):
        marker = self.marker()
        if marker not in (0xC2, 0xC3):
            raise Fault(TYPE, self.at)
        self.at += 1
        return marker - 0xC2

    def number(self):
        """(True, integer) or (False, the 64 bits of a double)."""
        at, marker = self.at, self.marker()
        if marker is None:
            raise Fault(FORMAT, at)
        if marker <= 0x7F or marker >= 0xE0:
            self.at = at + 1
            return True, marker if marker <= 0x7F else marker - 0x100
        if not 0xCA <= marker <= 0xD3:
            raise Fault(TYPE, at)
        width = {0xCA: 4, 0xCB: 8}.get(marker) or 1 << (marker & 3)
        if at + 1 + width > self.end:
            raise Fault(IO, at)
        self.at = at + 1 + width
        value = self.number_bytes(at + 1, width)
        if marker == 0xCA:
            return False, double_from_single(value)
        if marker == 0xCB:
            return False, value
        if marker >= 0xD0 and value >> (8 * width - 1):
            value -= 1 << (8 * width)
        return True, value

    def integer(self, target):
        start = self.at
        whole, value = self.number()
        if not whole or not target[0] <= value <= target[1]:
            raise Fault(CONVERSION, start)
        return value

    def double(self):
        whole, value = self.number()
        return double_from_int(value) if whole else value

    def name(self, names):
        start = self.at
        name = self.text()
        if name not in names:
            raise Fault(FORMAT, start)
        return name.decode('ascii')

    # what the reading makes

    def make(self, table, count=1):
        self.needs[table] += count

    def keep(self, text):
        """A text or byte part is stored."""
        self.needs[TEXT_BYTES] += len(text)
        return text

    # v04

    def payload_v04(self):
        traces = []
        for _ in range(self.plain_length(ARRAY_FORMS, FORMAT)):
            traces.append(self.read_trace(self.span_v04))
        return traces

    def read_trace(self, read_span):
        spans = []
        for _ in range(self.plain_length(ARRAY_FORMS, FORMAT)):
            self.record = SPAN
            spans.append(read_span())
            self.record = PAYLOAD
            self.make(SPANS)
            self.span += 1
        self.make(TRACES)
        self.trace, self.span = self.trace + 1, 0
        return spans

    def span_v04(self):
        span = empty_span()
        for _ in range(self.plain_length(MAP_FORMS, FORMAT)):
            name = self.name(SPAN_NAMES)
            # Null leaves the field as an absent one.
            span[name] = empty_span()[name] if self.null() else self.span_field(name)
        return span

    def span_field(self, name):
        if name in ('service', 'name', 'resource', 'type'):
            return self.keep(self.text())
        if name in ('trace_id', 'span_id', 'parent_id'):
            return self.integer(U64)
        if name in ('start', 'duration'):
            return self.integer(I64)
        if name == 'error':
            return self.integer(I32)
        if name == 'meta':
            return self.meta()
        if name == 'metrics':
            return self.pairs(METRICS, self.double)
        if name == 'meta_struct':
            return self.pairs(PARTS, lambda: self.keep(self.part()))
        if name == 'span_links':
            return self.records(LINK, LINKS, self.link)
        if name == 'span_events':
            return self.records(EVENT, EVENTS, self.event)
        raise AssertionError(name)

    def meta(self):
        pairs = []
        for _ in range(self.plain_length(MAP_FORMS, FORMAT)):
            key = self.text()
            if not self.null():
                value = self.text()
                pairs.append((self.keep(key), self.keep(value)))
                self.make(PAIRS)
        return pairs

    def pairs(self, table, read_value):
        pairs = []
        for _ in range(self.length(MAP_FORMS, FORMAT, TYPE, IO)):
            key = self.keep(self.text())
            pairs.append((key, read_value()))
            self.make(table)
        return pairs

    def records(self, record, table, read_record):
        found = []
        for _ in range(self.plain_length(ARRAY_FORMS, TYPE)):
            self.record = record
            found.append(read_record())
            self.record = SPAN
            self.make(table)
        return found

    def link(self):
        link = dict(trace_id=0, trace_id_high=0, span_id=0, attributes=[], tracestate=b'', flags=0)
        for _ in range(self.plain_length(MAP_FORMS, TYPE)):
            name = self.name(LINK_NAMES)
            if name == 'attributes':
                link[name] = self.link_attributes()
            elif name == 'tracestate':
                link[name] = self.keep(self.text())
            else:
                link[name] = self.integer(U32 if name == 'flags' else U64)
        return link

    def link_attributes(self):
        known = {}                      # a dict keeps first places and takes new values
        for _ in range(self.plain_length(MAP_FORMS, FORMAT)):
            key = self.text()
            if not self.null():
                value = self.text()
                if key not in known:
                    self.keep(key)
                    self.make(PAIRS)
                known[key] = self.keep(value)
        return list(known.items())

    def event(self):
        event = dict(time_unix_nano=0, name=b'', attributes=[])
        for _ in range(self.plain_length(MAP_FORMS, TYPE)):
            name = self.name(EVENT_NAMES)
            if name == 'time_unix_nano':
                event[name] = self.integer(U64)
            elif name == 'name':
                event[name] = self.keep(self.text())
            else:
                event[name] = self.event_attributes()
        return event

    def event_attributes(self):
        known = {}
        for _ in range(self.plain_length(MAP_FORMS, TYPE)):
            key = self.text()
            if key not in known:
                self.keep(key)
                self.make(ATTRIBUTES)
            self.record = ATTRIBUTE
            known[key] = self.attribute(ATTRIBUTE_NAMES)
            self.record = EVENT
        return list(known.items())

    def attribute(self, names, first_type=None):
        """An attribute or an array's element, which differ in their names; (type, value)."""
        start = self.at
        if self.plain_length(MAP_FORMS, TYPE) != 2:
            raise Fault(FORMAT, start)
        kind = value = None
        for _ in range(2):
            name = self.name(names)
            if name == 'type':
                kind = self.integer(U8)
            else:
                value = self.attribute_value(name)
        if value is None or kind is None:
            raise Fault(FORMAT, start)
        if kind != value[0]:
            raise Fault(TYPE, start)
        if first_type not in (None, kind):
            raise Fault(TYPE, start)
        return value

    def attribute_value(self, name):
        if name == 'array_value':
            return ARRAY, self.array()
        self.make(VALUES)
        if name == 'string_value':
            return TEXT, self.keep(self.text())
        if name == 'bool_value':
            return TRUTH, self.truth()
        if name == 'int_value':
            return INTEGER, self.integer(I64)
        if name == 'double_value':
            return DOUBLE, self.double()
        raise AssertionError(name)

    def array(self):
        if self.null():
            return []
        start = self.at
        if self.plain_length(MAP_FORMS, TYPE) != 1:
            raise Fault(FORMAT, start)
        self.name((b'values',))
        values = []
        for _ in range(self.plain_length(ARRAY_FORMS, TYPE)):
            self.record = ELEMENT
            values.append(self.attribute(ELEMENT_NAMES, values[0][0] if values else None))
            self.record = ATTRIBUTE
        return values

    # v05

    def payload_v05(self):
        if self.plain_length(ARRAY_FORMS, FORMAT) != 2:
            raise Fault(FORMAT, 0)
        self.record = DICTIONARY
        self.dictionary = []
        for _ in range(self.plain_length(ARRAY_FORMS, FORMAT)):
            self.dictionary.append(self.keep(self.text()))
            self.make(ENTRIES)
        self.record = PAYLOAD
        traces = []
        for _ in range(self.plain_length(ARRAY_FORMS, FORMAT)):
            traces.append(self.read_trace(self.span_v05))
        return traces

    def span_v05(self):
        start = self.at
        if self.plain_length(ARRAY_FORMS, FORMAT) != 12:
            raise Fault(FORMAT, start)
        span = empty_span()
        for name in ('service', 'name', 'resource'):
            span[name] = self.named_text()
        for name in ('trace_id', 'span_id', 'parent_id'):
            span[name] = self.integer(U64)
        for name in ('start', 'duration'):
            span[name] = self.integer(I64)
        span['error'] = self.integer(I32)
        for _ in range(self.plain_length(MAP_FORMS, FORMAT)):
            key = self.named_text()
            span['meta'].append((key, self.named_text()))
            self.make(PAIRS)
        if not self.null():
            for _ in range(self.length(MAP_FORMS, FORMAT, TYPE, IO)):
                key = self.named_text()
                span['metrics'].append((key, self.double()))
                self.make(METRICS)
        span['type'] = self.named_text()
        return span

    def named_text(self):
        start = self.at
        index = self.integer(U32)
        if index >= len(self.dictionary):
            raise Fault(FORMAT, start)
        return self.dictionary[index]


def empty_span():
    return dict(service=b'', name=b'', resource=b'', type=b'', trace_id=0, span_id=0, parent_id=0,
                start=0, duration=0, error=0, meta=[], metrics=[], meta_struct=[],
                span_links=[], span_events=[])


SPAN_NAMES = frozenset(name.encode() for name in empty_span())
LINK_NAMES = frozenset((b'trace_id', b'trace_id_high', b'span_id', b'attributes', b'tracestate',
                        b'flags'))
EVENT_NAMES = frozenset((b'time_unix_nano', b'name', b'attributes'))
ELEMENT_NAMES = frozenset((b'type', b'string_value', b'bool_value', b'int_value', b'double_value'))
ATTRIBUTE_NAMES = ELEMENT_NAMES | {b'array_value'}


def read(data, read_payload):
    """(the answer, the needs or None)"""
    reader = Reader(bytes(data))
    try:
        traces = read_payload(reader)
    except Fault as fault:
        return ('fault', fault.cause, fault.place, reader.record, reader.trace, reader.span), None
    return ('ok', traces, reader.at), reader.needs


def read_v04(data):
    return read(data, Reader.payload_v04)[0]


def read_v05(data):
    return read(data, Reader.payload_v05)[0]


def needs_v04(data):
    return read(data, Reader.payload_v04)[1]


def needs_v05(data):
    return read(data, Reader.payload_v05)[1]


# ---- writing ----

def put_length(forms, length):
    first, count, wide = forms
    if length < count:
        return bytes([first + length])
    for marker, width in wide.items():
        if length < 1 << 8 * width:
            return bytes([marker]) + length.to_bytes(width, 'big')
    raise OverflowError(length)


def put_text(text):
    yield put_length(TEXT_FORMS, len(text))
    yield text


def put_name(name):
    return b''.join(put_text(name.encode()))


def put_part(part):
    yield put_length(PART_FORMS, len(part))
    yield part


def put_integer(n):
    """The shortest form, unsigned from 0 up."""
    if -32 <= n <= 127:
        return bytes([n & 0xFF])
    for k in range(4):
        width = 1 << k
        if 0 <= n < 1 << 8 * width:
            return bytes([0xCC + k]) + n.to_bytes(width, 'big')
        if -(1 << 8 * width - 1) <= n < 0:
            return bytes([0xD0 + k]) + n.to_bytes(width, 'big', signed=True)
    raise OverflowError(n)


def put_u8(n):
    return b'\xCC' + n.to_bytes(1, 'big')


def put_u32(n):
    return b'\xCE' + n.to_bytes(4, 'big')


def put_u64(n):
    return b'\xCF' + n.to_bytes(8, 'big')


def put_i64(n):
    return b'\xD3' + n.to_bytes(8, 'big', signed=True)


def put_double(bits):
    return b'\xCB' + bits.to_bytes(8, 'big')


def put_pairs(pairs, put_value):
    yield put_length(MAP_FORMS, len(pairs))
    for key, value in pairs:
        yield from put_text(key)
        yield from put_value(value)


def put_fields(fields):
    """A map of the fields that are written: (name, its value's pieces)."""
    yield put_length(MAP_FORMS, len(fields))
    for name, value in fields:
        yield put_name(name)
        yield from value


def put_list(items, put_item):
    yield put_length(ARRAY_FORMS, len(items))
    for item in items:
        yield from put_item(item)


def put_span(span):
    fields = [('service', put_text(span['service'])),
              ('name', put_text(span['name'])),
              ('resource', put_text(span['resource'])),
              ('trace_id', [put_u64(span['trace_id'])]),
              ('span_id', [put_u64(span['span_id'])])]
    if span['parent_id']:
        fields.append(('parent_id', [put_u64(span['parent_id'])]))
    fields.append(('start', [put_i64(span['start'])]))
    fields.append(('duration', [put_integer(span['duration'])]))
    if span['error']:
        fields.append(('error', [put_integer(span['error'])]))
    if span['meta']:
        fields.append(('meta', put_pairs(span['meta'], put_text)))
    if span['metrics']:
        fields.append(('metrics', put_pairs(span['metrics'], lambda bits: [put_double(bits)])))
    if span['type']:
        fields.append(('type', put_text(span['type'])))
    if span['meta_struct']:
        fields.append(('meta_struct', put_pairs(span['meta_struct'], put_part)))
    if span['span_links']:
        fields.append(('span_links', put_list(span['span_links'], put_link)))
    if span['span_events']:
        fields.append(('span_events', put_list(span['span_events'], put_event)))
    yield from put_fields(fields)


def put_link(link):
    fields = [('trace_id', [put_u64(link['trace_id'])]),
              ('trace_id_high', [put_u64(link['trace_id_high'])]),
              ('span_id', [put_u64(link['span_id'])])]
    if link['attributes']:
        fields.append(('attributes', put_pairs(link['attributes'], put_text)))
    if link['tracestate']:
        fields.append(('tracestate', put_text(link['tracestate'])))
    if link['flags']:
        fields.append(('flags', [put_u32(link['flags'])]))
    yield from put_fields(fields)


def put_event(event):
    fields = [('time_unix_nano', [put_u64(event['time_unix_nano'])]),
              ('name', put_text(event['name']))]
    if event['attributes']:
        fields.append(('attributes', put_pairs(event['attributes'], put_attribute)))
    yield from put_fields(fields)


def put_attribute(attribute):
    kind, value = attribute
    if kind == TEXT:
        field = 'string_value', put_text(value)
    elif kind == TRUTH:
        field = 'bool_value', [bytes([0xC2 + value])]
    elif kind == INTEGER:
        field = 'int_value', [put_integer(value)]
    elif kind == DOUBLE:
        field = 'double_value', [put_double(value)]
    else:
        field = 'array_value', put_fields([('values', put_list(value, put_attribute))])
    yield from put_fields([('type', [put_u8(kind)]), field])


def pieces_v04(traces):
    return put_list(traces, lambda trace: put_list(trace, put_span))


def encode_v04(traces):
    return b''.join(pieces_v04(traces))


def measure_v04(traces):
    return sum(map(len, pieces_v04(traces)))


def answer_line(answer):
    if answer[0] == 'ok':
        return 'traces %d consumed %d' % (len(answer[1]), answer[2])
    return 'refused %d place %d record %d trace %d span %d' % answer[1:]


if __name__ == '__main__':
    import sys
    reading = {'v04': read_v04, 'v05': read_v05}[sys.argv[1]]
    given = bytes.fromhex(''.join(sys.argv[2:])) if sys.argv[2:] else sys.stdin.buffer.read()
    print(answer_line(reading(given)))
