"""cbor2's view of some bytes. Reads lines of hex, each a sequence of CBOR
items, and writes a line for each: "malformed", or the items in the order of
their heads, as tests/reading/src/appendix.rs describes."""

import io
import math
import struct
import sys

from cbor2 import decoder
from cbor2.types import CBORSimpleValue, CBORTag, undefined

# Tags are to come out as tags, not as dates or big numbers.
decoder.semantic_decoders.clear()

SIMPLE = {False: 20, True: 21, None: 22, undefined: 23}


def tokens(value):
    if value is undefined or value is None or isinstance(value, bool):
        return ["s", str(SIMPLE[value])]
    if isinstance(value, CBORSimpleValue):
        return ["s", str(value.value)]
    if isinstance(value, int):
        return ["u", str(value)] if value >= 0 else ["n", str(-1 - value)]
    if isinstance(value, float):
        return ["f", "nan" if math.isnan(value) else struct.pack(">d", value).hex()]
    if isinstance(value, bytes):
        return ["b"] + ([value.hex()] if value else [])
    if isinstance(value, str):
        return ["t"] + ([value.encode().hex()] if value else [])
    if isinstance(value, (list, tuple)):
        return ["a", str(len(value))] + [t for member in value for t in tokens(member)]
    if isinstance(value, dict):
        pairs = [t for pair in value.items() for member in pair for t in tokens(member)]
        return ["m", str(len(value))] + pairs
    if isinstance(value, CBORTag):
        return ["g", str(value.tag)] + tokens(value.value)
    raise TypeError(type(value))


def sequence(data):
    stream = io.BytesIO(data)
    found = []
    while stream.tell() < len(data):
        found += tokens(decoder.CBORDecoder(stream).decode())
    return " ".join(found)


for line in sys.stdin:
    try:
        print(sequence(bytes.fromhex(line.strip())))
    except Exception:  # whatever way the peer has of saying no
        print("malformed")
