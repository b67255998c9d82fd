"""Write the trace payloads of this folder.

    python3 payloads/make.py payloads

The files come out the same each time: everything stands in the tables
below, and neither the clock nor chance has a part in it.

A v04 payload is a MessagePack array of traces, a trace is an array of
spans, and a span is a map. Here one pressed key of a synthesizer makes one
trace, and each step from the key to the sound makes one span.
"""

import struct
import sys
from dataclasses import dataclass
from pathlib import Path

# ---------------------------------------------------------------- MessagePack


class F32(float):
    """A number to be written as a 32-bit float (CA)."""


@dataclass
class Timestamp:
    """A time in whole seconds, written as extension type -1."""

    seconds: int


def head(count, small, wide):
    """A length: `small` is (limit, marker), `wide` lists (limit, marker, form)."""
    if small and count < small[0]:
        return bytes([small[1] | count])
    for limit, marker, form in wide:
        if count < limit:
            return bytes([marker]) + struct.pack(form, count)
    raise ValueError("too long")


def pack_int(n):
    """The shortest form."""
    if 0 <= n < 128:
        return bytes([n])
    if -32 <= n < 0:
        return struct.pack(">b", n)
    if n > 0:
        forms = [(8, 0xCC, ">B"), (16, 0xCD, ">H"), (32, 0xCE, ">I"), (64, 0xCF, ">Q")]
        fits = lambda bits: n < 1 << bits
    else:
        forms = [(8, 0xD0, ">b"), (16, 0xD1, ">h"), (32, 0xD2, ">i"), (64, 0xD3, ">q")]
        fits = lambda bits: n >= -1 << bits - 1
    for bits, marker, form in forms:
        if fits(bits):
            return bytes([marker]) + struct.pack(form, n)
    raise ValueError("too large")


def pack(value):
    if value is None:
        return b"\xC0"
    if isinstance(value, bool):
        return b"\xC3" if value else b"\xC2"
    if isinstance(value, int):
        return pack_int(value)
    if isinstance(value, F32):
        return b"\xCA" + struct.pack(">f", value)
    if isinstance(value, float):
        return b"\xCB" + struct.pack(">d", value)
    if isinstance(value, Timestamp):
        return b"\xD6\xFF" + struct.pack(">I", value.seconds)
    if isinstance(value, str):
        data = value.encode("utf-8")
        return head(len(data), (32, 0xA0), [(1 << 8, 0xD9, ">B"), (1 << 16, 0xDA, ">H")]) + data
    if isinstance(value, bytes):
        return head(len(value), None, [(1 << 8, 0xC4, ">B"), (1 << 16, 0xC5, ">H")]) + value
    if isinstance(value, list):
        return head(len(value), (16, 0x90), [(1 << 16, 0xDC, ">H")]) + b"".join(map(pack, value))
    if isinstance(value, dict):
        pairs = b"".join(pack(k) + pack(v) for k, v in value.items())
        return head(len(value), (16, 0x80), [(1 << 16, 0xDE, ">H")]) + pairs
    raise TypeError(type(value))


# ----------------------------------------------------------------- the phrase

SECONDS = 1_773_516_600  # 2026-03-14 19:30:00 UTC, the first key
BASE = SECONDS * 1_000_000_000
TRACE_ID_HIGH = SECONDS << 32  # upper half of all trace ids
US = 1_000
MS = 1_000_000

# Each model writes the numbers of its sound in its own form.
NUMBER = {"four-voice": F32, "eight-voice": float, "rack": round}

# Every kind of span: its service (added to the model's name), the kind above
# it, and when it starts after the key. Only the amplifier, which is what one
# hears, has the bare name of the model as its service.
PARTS = {
    "key.scan": (".keys", None, 0),
    "note.on": (".keys", "key.scan", 60 * US),
    "voice.allocate": (".voices", "note.on", 95 * US),
    "voice.steal": (".voices", "voice.allocate", 101 * US),
    "oscillator.start": (".sound", "voice.allocate", 130 * US),
    "envelope.attack": (".sound", "voice.allocate", 180 * US),
    "filter": (".sound", "oscillator.start", 190 * US),
    "amplifier": ("", "filter", 200 * US),
    "release": (".sound", "amplifier", None),  # starts when the key goes up
}

PATCHES = {
    #          attack    release    cutoff   detune  wave
    "Fläche": (420 * MS, 1800 * MS, 780.5, -7.25, "saw"),
    "Bell 鐘": (900 * US, 4200 * MS, 5212.75, 3.5, "sine"),
    "𝄢 Bass": (6 * MS, 90 * MS, 310.0, -12.0, "pulse"),
}


@dataclass
class Note:
    model: str
    patch: str
    key: str
    number: int  # MIDI note number
    velocity: int
    pressed: int  # after BASE
    held: int  # from key down to key up
    voice: int
    without: tuple = ()  # the parts that were not recorded
    steals: int = -1  # which note loses its voice to this one
    reason: str = ""


NO_STEAL = ("voice.steal",)
STOLEN = ("voice.steal", "release")

NOTES = [
    Note("four-voice", "Fläche", "C3", 48, 84, 0, 900 * MS, 0, STOLEN),
    Note("four-voice", "Fläche", "E3", 52, 79, 12_400 * US, 1400 * MS, 1, NO_STEAL),
    Note("four-voice", "Fläche", "G3", 55, 91, 25_100 * US, 1380 * MS, 2, NO_STEAL),
    Note("four-voice", "Fläche", "A#3", 58, 33, 250 * MS, 900 * MS, 3, STOLEN),
    Note("four-voice", "Fläche", "C4", 60, 102, 500 * MS, 610 * MS, 0, (), 0, "oldest"),
    Note("four-voice", "Fläche", "D#4", 63, 127, 750 * MS, 480 * MS, 3, (), 3, "quietest"),
    Note("eight-voice", "Bell 鐘", "A2", 45, 64, 300 * MS, 75 * MS, 5,
         NO_STEAL + ("envelope.attack", "filter")),
    Note("rack", "𝄢 Bass", "A1", 33, 64, 301_320 * US, 210 * MS, 1,
         NO_STEAL + ("key.scan", "oscillator.start", "envelope.attack", "filter")),
]


def spread(n):
    """A different 64-bit number for every n: an odd factor loses nothing."""
    return n * 0x9E3779B97F4A7C15 % (1 << 64)


def trace_id(i):
    return spread(1000 + i)


def span_id(i, part):
    return spread(16 * (i + 1) + list(PARTS).index(part))


def parent_id(i, part):
    """The nearest recorded span above. The rack has no keys: the key scan
    that its note names was made in an instrument that was not recorded."""
    above = PARTS[part][1]
    while above in NOTES[i].without and above != "key.scan":
        above = PARTS[above][1]
    return span_id(i, above) if above else 0


def start(i, part):
    note = NOTES[i]
    after = note.held if part == "release" else PARTS[part][2] + 137 * i
    return BASE + note.pressed + after


def thief(i):
    return next((k for k, note in enumerate(NOTES) if note.steals == i), None)


def end(i, part):
    note = NOTES[i]
    attack, release = PATCHES[note.patch][:2]
    short = {
        "key.scan": 212 * US + 1_310 * i,
        "voice.allocate": 24 * US + 90 * i,
        "voice.steal": 9_480,
        "oscillator.start": 45_250 + 77 * i,
        "envelope.attack": attack,
    }
    if part in short:
        return start(i, part) + short[part]
    if thief(i) is not None:  # silent as soon as the voice is taken
        return start(thief(i), "voice.steal")
    return BASE + note.pressed + note.held + release


# ------------------------------------------------- what the spans carry besides

KINDS = {str: (0, "string_value"), bool: (1, "bool_value"), int: (2, "int_value"),
         float: (3, "double_value"), list: (4, "array_value")}


def attribute(value):
    number, field = KINDS[type(value)]
    if isinstance(value, list):
        value = {"values": [attribute(v) for v in value]}
    return {"type": number, field: value}


def event(time, name, **attributes):
    out = {"time_unix_nano": time, "name": name}
    if attributes:
        out["attributes"] = {k: attribute(v) for k, v in attributes.items()}
    return out


def link(i, part, attributes, **more):
    return {"trace_id": trace_id(i), "trace_id_high": TRACE_ID_HIGH,
            "span_id": span_id(i, part), "attributes": attributes, **more}


def patch_data(note):
    """The patch as its editor saved it: MessagePack of its own."""
    attack, release, cutoff, detune, wave = PATCHES[note.patch]
    return pack({
        "name": note.patch,
        "saved": Timestamp(SECONDS - 86_400),
        "osc": [{"wave": wave, "detune": F32(detune)}, {"wave": "noise", "detune": None}],
        "env": [attack // US, 0, True, release // US],
        "matrix": [["lfo1", "cutoff", -40], ["wheel", "pitch", [0, [200]]]],
        "cutoff": cutoff,
    })


def wave_table():
    """One turn of a triangle in 32 steps, and the same again as bytes."""
    steps = [min(k, 32 - k) * 15 - 120 for k in range(32)]
    return pack({"steps": steps, "raw": bytes(s + 128 for s in steps)})


def meta(i, part):
    note = NOTES[i]
    named = {"model": note.model, "patch": note.patch, "key": note.key}
    own = {
        "key.scan": {**named, "_dd.p.tid": f"{TRACE_ID_HIGH:016x}"},
        "note.on": {"key": note.key},
        "voice.steal": {"reason": note.reason},
        "oscillator.start": {"wave": PATCHES[note.patch][4]},
        "filter": {"mode": "low-pass 24 dB"},
        "amplifier": named,
    }.get(part, {})
    if (i, part) == (2, "filter"):
        own["error.type"] = "TuneError"
        own["error.message"] = "VCF 3 stayed 31 cents flat, its board was switched off"
    return own


def metrics(i, part):
    note = NOTES[i]
    number = NUMBER[note.model]
    cutoff, detune = PATCHES[note.patch][2:4]
    return {
        "key.scan": {"contact_ms": number(14.5 - note.velocity / 16)},
        "note.on": {"velocity": note.velocity},
        "voice.allocate": {"voice": note.voice, "cpu_load": (23 + 7 * i) / 100},
        "oscillator.start": {"detune_cents": number(detune * (note.voice + 1))},
        "filter": {"cutoff_hz": number(cutoff + 20 * note.velocity), "sample_rate": 96_000},
        "amplifier": {"level_db": number(note.velocity / 4 - 32), "cpu_load": 0.3125 + i / 64},
    }.get(part, {})


def resource(i, part):
    note = NOTES[i]
    return {
        "key.scan": f"key {note.key}",
        "note.on": f"note {note.number}",
        "voice.steal": f"voice {note.voice} of {NOTES[note.steals].key}",
    }.get(part, f"voice {note.voice}")


def extras():
    """Byte parts, links and events, by note and part."""
    out = {
        (0, "voice.allocate"): {"meta_struct": {"patch": patch_data(NOTES[0])}},
        (1, "note.on"): {"span_events": [
            event(BASE + 640 * MS, "pedal", down=True),
            event(BASE + 702 * MS, "aftertouch", pressure=[12, 71, 127, 64], bend=[-200, -50, 0]),
        ]},
        (2, "filter"): {"span_events": [
            event(BASE + 31 * MS, "tune.failed", board="VCF 3", retry=False, tries=3,
                  cents=[-44.5, -33.25, -31.0], others=["VCF 1", "VCF 2"]),
        ]},
        (5, "amplifier"): {"span_events": [event(BASE + 760 * MS, "clip", count=70_000)]},
        (6, "key.scan"): {"span_events": [event(BASE + 300_110 * US, "key.bounce")]},
        (6, "oscillator.start"): {
            "meta_struct": {"patch": patch_data(NOTES[6]), "wave": wave_table()}},
        (7, "voice.allocate"): {
            "meta_struct": {"patch": pack(None)},
            "span_links": [link(6, "note.on", {"reason": "layer"})],
            "span_events": [event(BASE + 301_440 * US, "midi.in", running_status=True,
                                  channels=[True, False, False, True], held=[])],
        },
    }
    for i, note in enumerate(NOTES):
        if note.steals < 0:
            continue
        lost = NOTES[note.steals]
        out[i, "voice.steal"] = {"span_links": [
            link(note.steals, "amplifier", {"reason": note.reason, "key": lost.key},
                 tracestate="dd=s:1;o:synth", flags=1 if i == 4 else 0x8000_0001)]}
        out[note.steals, "amplifier"] = {"span_events": [
            event(start(i, "voice.steal"), "stolen", by=note.key, reason=note.reason,
                  voice=note.voice, released=False, level_db=lost.velocity / 4 - 38)]}
    return out


def span(i, part, extra):
    note = NOTES[i]
    out = {
        "service": note.model + PARTS[part][0],
        "name": part,
        "resource": resource(i, part),
        "trace_id": trace_id(i),
        "span_id": span_id(i, part),
        "parent_id": parent_id(i, part),
        "start": start(i, part),
        "duration": end(i, part) - start(i, part),
        "error": int((i, part) == (2, "filter")),
        "meta": meta(i, part),
        "metrics": metrics(i, part),
        "type": "audio" if PARTS[part][0] in ("", ".sound") else "control",
        **extra.get((i, part), {}),
    }
    return {k: v for k, v in out.items() if v != {}}


def phrase():
    extra = extras()
    traces = []
    for i, note in enumerate(NOTES):
        spans = [span(i, part, extra) for part in PARTS if part not in note.without]
        # The rack sends a span when it ends, so its innermost comes first.
        traces.append(spans[::-1] if note.model == "rack" else spans)
    return traces


# ------------------------------------------------------------------ the files


def main():
    if len(sys.argv) != 2:
        sys.exit("usage: make.py FOLDER")
    folder = Path(sys.argv[1])
    traces = phrase()
    whole = pack(traces)
    last = pack(traces[-1][-1])
    files = {
        "phrase.msgpack": whole,
        "note.msgpack": pack([[{"span_id": 7, "duration": -1}]]),
        "damaged.msgpack": whole[: len(whole) - len(last) // 2],
    }
    for name, data in files.items():
        (folder / name).write_bytes(data)
        print(f"{name}: {len(data)} bytes")


if __name__ == "__main__":
    main()
