"""Writes the table of payloads that the program `readings` reads, and the answers that it has to print.

    python3 model/make_readings.py crates/readings

The answers come from model.py, which was written apart from the Rattle code. The table has worked
examples by hand, small payloads for each rule, all payloads of one byte, copies of a payload that are
cut at every place or have one byte changed, and random payloads, valid and damaged (fixed seed).
"""

import random
import sys

import gen
import model

MASK = (1 << 64) - 1


def answer(data):
    """What `readings` prints for a payload."""
    result = model.read_v04(data)
    if result[0] == 'fault':
        return 'refused %d place %d record %d trace %d span %d' % result[1:]
    _, traces, consumed = result
    numbers = spans = 0
    for trace in traces:
        for span in trace:
            spans += 1
            for field in ('trace_id', 'span_id', 'parent_id', 'start', 'duration', 'error'):
                numbers = (numbers * 31 + (span[field] & MASK)) & MASK
        numbers = (numbers * 31 + 1) & MASK
    return 'traces %d consumed %d spans %d numbers %x' % (len(traces), consumed, spans, numbers)


def text(content):
    return bytes([0xA0 + len(content)]) + content.encode()


def fields(*pairs):
    return bytes([0x80 + len(pairs)]) + b''.join(text(name) + value for name, value in pairs)


def one_span(*pairs):
    return b'\x91\x91' + fields(*pairs)


def link(*pairs):
    return one_span(('span_links', b'\x91' + fields(*pairs)))


def event(*pairs):
    return one_span(('span_events', b'\x91' + fields(*pairs)))


def attribute(*pairs):
    return event(('attributes', b'\x81' + text('k') + fields(*pairs)))


def array(*elements):
    values = bytes([0x90 + len(elements)]) + b''.join(elements)
    return attribute(('type', b'\x04'), ('array_value', fields(('values', values))))


NOTE = bytes.fromhex('919182a77370616e5f696407a86475726174696f6eff')
NULL = b'\xC0'
NUMBERS = ('trace_id', 'span_id', 'parent_id', 'start', 'duration', 'error')
NUMBER_FORMS = ['00', '7f', 'e0', 'ff', 'cc80', 'cdffff', 'ceffffffff', 'cfffffffffffffffff', 'cf7fffffffffffffff', 'd080',
                'd18000', 'd280000000', 'd27fffffff', 'd38000000000000000', 'd37fffffffffffffff', 'ca00000000', 'cb0000000000000000',
                'c0', 'c1', 'c2', 'a130', 'c400', 'd40000', '', 'cc', 'cd00', 'ce000000', 'cf00000000000000', 'd0', 'ca000000', 'cb']
TEXTS = [text(''), text('x'), NULL, b'\x01', b'\xA1', b'\xD9', b'\xD9\x02a', b'\xDA\x00', b'\xDB\x00\x00\x00', b'\xA3\xED\xA0\x80',
         b'\xA2\xC0\x80', b'\xA4\xF4\x90\x80\x80', b'\xA3\xE2\x82\xAC', b'\xA1\xFF', b'\xC4\x00', b'']


def worked():
    yield b''
    yield b'\x90'
    yield NOTE
    yield NOTE + b'\x00'
    for rest in ('c0', '80', '9190', '92918090', '92928080', 'ddffffffff', '92ddffffffff', 'dc0001', 'dd', 'd9', 'c1'):
        yield bytes.fromhex(rest)
    for name in NUMBERS:
        for form in NUMBER_FORMS:
            yield one_span((name, bytes.fromhex(form)))
        yield one_span((name, b'\x05'), (name, b'\x06'))
        yield one_span((name, b'\x05'), (name, NULL))
    for name in ('service', 'name', 'resource', 'type'):
        for value in TEXTS:
            yield one_span((name, value))
    for name in ('Service', 'names', 'values', 'flags', ''):
        yield one_span((name, b'\x00'))
    yield b'\x91\x91\x81\xA2\xC0\x80\x00'


def maps():
    heads = [NULL, b'\x80', b'\x90', b'', b'\xDE', b'\xDE\x00', b'\xDF\x00\x00\x00', b'\xDE\x00\x00', b'\xDF\xFF\xFF\xFF\xFF', b'\xC1']
    values = {'meta': TEXTS, 'metrics': [bytes.fromhex(form) for form in NUMBER_FORMS],
              'meta_struct': [b'\xC4\x00', b'\xC4\x01x', b'\xC5\x00\x00', b'\xC6\x00\x00\x00\x01x', b'\xC4', b'\xC4\x02x', b'\xC5\x00', b'\xC6', NULL, text('x'), b'']}
    for name in values:
        for head in heads:
            yield one_span((name, head))
        for key in TEXTS:
            yield one_span((name, b'\x81' + key + values[name][0]))
        for value in values[name]:
            yield one_span((name, b'\x81' + text('k') + value))
            yield one_span((name, b'\x82' + text('k') + value + text('k') + value))


def links():
    for head in (NULL, b'\x90', b'\x80', b'', b'\xDC\x00', b'\xDD\xFF\xFF\xFF\xFF'):
        yield one_span(('span_links', head))
        yield one_span(('span_events', head))
    for head in (NULL, b'\x90', b'', b'\xDE\x00', b'\x81'):
        yield one_span(('span_links', b'\x91' + head))
        yield one_span(('span_events', b'\x91' + head))
    for name in ('trace_id', 'trace_id_high', 'span_id', 'flags'):
        for form in NUMBER_FORMS:
            yield link((name, bytes.fromhex(form)))
    for value in TEXTS:
        yield link(('tracestate', value))
        yield link(('attributes', b'\x81' + text('k') + value))
        yield event(('name', value))
        yield event(('attributes', b'\x81' + value + fields(('type', b'\x01'), ('bool_value', b'\xC3'))))
    for head in (NULL, b'\x80', b'\x90', b'', b'\xDE\x00'):
        yield link(('attributes', head))
        yield event(('attributes', head))
    for form in NUMBER_FORMS:
        yield event(('time_unix_nano', bytes.fromhex(form)))
    yield link(('name', text('x')))
    yield event(('flags', b'\x00'))


def attributes():
    kinds = [('string_value', text('x')), ('bool_value', b'\xC3'), ('int_value', b'\xFF'), ('double_value', b'\x07'), ('array_value', NULL),
             ('array_value', fields(('values', b'\x90')))]
    for number, (name, value) in enumerate(kinds):
        for kind in (b'\x00', b'\x01', b'\x02', b'\x03', b'\x04', b'\x05', b'\xCC\x04', b'\xFF', b'\xCD\x01\x00', NULL, b''):
            yield attribute(('type', kind), (name, value))
            yield attribute((name, value), ('type', kind))
        yield attribute((name, value))
        yield attribute((name, value), (name, value))
        yield attribute(('type', b'\x00'), ('type', b'\x01'))
        yield attribute(('type', bytes([min(number, 4)])), (name, value), (name, value))
        yield array(fields(('type', bytes([number % 4])), (name, value)))
    for value in (b'', b'\x00', NULL, b'\xC2', b'\xC3', b'\xC1'):
        yield attribute(('type', b'\x01'), ('bool_value', value))
    for form in NUMBER_FORMS:
        yield attribute(('type', b'\x02'), ('int_value', bytes.fromhex(form)))
        yield attribute(('type', b'\x03'), ('double_value', bytes.fromhex(form)))
    elements = [fields(('type', bytes([n])), kinds[n]) for n in range(4)]
    for first in elements:
        for second in elements:
            yield array(first, second)
            yield array(first, first, second)
    for element in (NULL, b'\x80', b'\x90', b'', fields(kinds[0]), fields(('type', b'\x00'), ('type', b'\x00')), fields(('type', b'\x01'), kinds[0]),
                    fields(('type', b'\x04'), kinds[4]), fields(('type', b'\x00'), ('values', b'\x90')), fields(kinds[0], kinds[0])):
        yield array(element)
        yield array(elements[0], element)
    for value in (b'\x80', b'\x82', b'\x90', b'', fields(('value', b'\x90')), fields(('values', NULL)), fields(('values', b'')), b'\x81\xA1\xFF', b'\x81\x00'):
        yield attribute(('type', b'\x04'), ('array_value', value))


def damaged(data, rng):
    for end in range(len(data)):
        yield data[:end]
    for place in range(len(data)):
        yield data[:place] + bytes([data[place] ^ (1 << rng.randrange(8))]) + data[place + 1:]


def cases():
    rng = random.Random(4)
    yield from worked()
    yield from maps()
    yield from links()
    yield from attributes()
    for byte in range(256):
        yield bytes([byte])
    yield from damaged(gen.random_payload_v04(rng), rng)
    yield from damaged(gen.random_payload_v04(rng), rng)
    for _ in range(300):
        payload = gen.random_payload_v04(rng)
        yield payload
        yield gen.damage(rng, payload)


def main(folder):
    seen = []
    for case in cases():
        if case not in seen:
            seen.append(case)
    with open(folder + '/stdin', 'w') as file:
        file.writelines(case.hex() + '\n' for case in seen)
    with open(folder + '/stdout', 'w') as file:
        file.writelines(answer(case) + '\n' for case in seen)


if __name__ == '__main__':
    main(sys.argv[1])
