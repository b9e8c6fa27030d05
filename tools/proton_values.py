"""Values of the standard's tables, as Qpid Proton has them, and their encodings (Debian: python3-qpid-proton)."""

import uuid
from proton import Array, Data, Described, UNDESCRIBED, float32, int32, symbol, timestamp, ubyte, uint, ulong, ushort


def symbols(*names):
    return Array(UNDESCRIBED, Data.SYMBOL, *[symbol(name) for name in names])


def of(code, *fields):
    return Described(ulong(code), list(fields))


def error():
    return of(0x1D, symbol("amqp:not-found"), "no q", {symbol("k"): 1})


def source():
    return of(0x28, "q", uint(2), symbol("never"), uint(300), True, {symbol("p"): "v"}, symbol("copy"),
              {symbol("f"): Described(symbol("x:f"), "a=1")}, of(0x26), symbols("amqp:accepted:list", "amqp:rejected:list"),
              symbol("queue"))


def target():
    return of(0x29, "t", uint(1), symbol("link-detach"), uint(0), False, {symbol("p"): None}, symbols("topic"))


VALUES = {
    "OPEN": of(0x10, "c", "h", uint(512), ushort(9), uint(30000), symbol("en-US"), symbols("en", "de"),
               symbol("a"), symbols("b"), {symbol("product"): "x"}),
    "OPEN_SHORT": of(0x10, "c", None, uint(512)),
    "BEGIN": of(0x11, ushort(1), uint(2), uint(300), uint(4), uint(255), symbol("a"), symbols("b", "c"), {symbol("k"): True}),
    "BEGIN_SHORT": of(0x11, None, uint(0), uint(1), uint(2)),
    "ATTACH": of(0x12, "l", uint(0), True, ubyte(1), ubyte(1), source(), target(),
                 {b"\1": None, b"\2": of(0x23, uint(1), ulong(2))}, False, uint(7), ulong(70000), symbol("a"), symbols("b"),
                 {symbol("k"): uint(1)}),
    "ATTACH_SHORT": of(0x12, "l", uint(1), False, None, None, of(0x28, "q"), of(0x29)),
    "FLOW": of(0x13, uint(1), uint(2), uint(3), uint(4), uint(5), uint(6), uint(7), uint(8), True, False, {symbol("k"): 1}),
    "FLOW_SHORT": of(0x13, None, uint(2), uint(3), uint(4), uint(0), None, uint(100)),
    "TRANSFER": of(0x14, uint(1), uint(2), b"\0\1", uint(0), True, False, ubyte(0), of(0x24), True, False, True),
    "TRANSFER_SHORT": of(0x14, uint(3), None, None, None, None, False),
    "DISPOSITION": of(0x15, True, uint(1), uint(9), True, of(0x27, True, False, {symbol("k"): None}), False),
    "DISPOSITION_SHORT": of(0x15, False, uint(1), None, None, of(0x25, error())),
    "DETACH": of(0x16, uint(1), True, error()),
    "DETACH_SHORT": of(0x16, uint(1)),
    "END": of(0x17, error()),
    "END_SHORT": of(0x17),
    "CLOSE": of(0x18, of(0x1D, symbol("amqp:internal-error"))),
    "CLOSE_SHORT": of(0x18),
    "ERROR_REPORT": error(),
    "RECEIVED": of(0x23, uint(5), ulong(600)),
    "ACCEPTED": of(0x24),
    "REJECTED": of(0x25, of(0x1D, symbol("amqp:not-allowed"), "why")),
    "RELEASED": of(0x26),
    "MODIFIED": of(0x27, None, True),
    "SOURCE": source(),
    "TARGET": target(),
    "HEADER": of(0x70, True, ubyte(9), uint(1000), False, uint(2)),
    "HEADER_SHORT": of(0x70, None, ubyte(4)),
    "DELIVERY_ANNOTATIONS": Described(ulong(0x71), {symbol("x-opt-a"): "v"}),
    "MESSAGE_ANNOTATIONS": Described(ulong(0x72), {symbol("x-opt-b"): timestamp(13), ulong(300): None}),
    "PROPERTIES": of(0x73, ulong(7), b"me", "to", "s", "from", uuid.UUID(int=0x0102030405060708090A0B0C0D0E0F10),
                     symbol("text/plain"), symbol("gzip"), timestamp(100000), timestamp(-1), "g", uint(4294967295), "r"),
    "PROPERTIES_SHORT": of(0x73, "id", None, None, None, None, b"\xff"),
    "APPLICATION_PROPERTIES": Described(ulong(0x74), {"b": True, "i": int32(-5), "f": float32(1.5), "s": "v", "n": None}),
    "DATA": Described(ulong(0x75), b"abc"),
    "AMQP_SEQUENCE": Described(ulong(0x76), [None, uint(1), "a"]),
    "AMQP_VALUE": Described(ulong(0x77), [[], {"k": 300}]),
    "FOOTER": Described(ulong(0x78), {symbol("crc"): uint(99)}),
    "COORDINATOR": of(0x30, symbol("amqp:local-transactions")),
    "DECLARE": of(0x31),
    "DISCHARGE": of(0x32, b"t", True),
    "DECLARED": of(0x33, b"t"),
    "TRANSACTIONAL_STATE": of(0x34, b"t", of(0x24)),
    "SASL_MECHANISMS": of(0x40, symbols("ANONYMOUS", "PLAIN")),
    "SASL_INIT": of(0x41, symbol("PLAIN"), b"\0a\0b", "h"),
    "SASL_CHALLENGE": of(0x42, b"c"),
    "SASL_RESPONSE": of(0x43, b"r"),
    "SASL_OUTCOME": of(0x44, ubyte(0), b"d"),
}


def proton_bytes(value):
    data = Data()
    data.put_object(value)
    return data.encode()


def headed(codes, count, body):
    """A body under the shortest header (AMQP 1.0 part 1, sections 1.6.22 to 1.6.24)."""
    if len(body) + 1 < 256 and count < 256:
        return bytes([codes[0], len(body) + 1, count]) + body
    return bytes([codes[1]]) + (len(body) + 4).to_bytes(4, "big") + count.to_bytes(4, "big") + body


def shortest(value):
    if isinstance(value, Described):
        return b"\0" + shortest(value.descriptor) + shortest(value.value)
    if isinstance(value, list):
        return headed(b"\xc0\xd0", len(value), b"".join(map(shortest, value))) if value else b"\x45"
    if isinstance(value, dict):
        entries = [shortest(part) for entry in value.items() for part in entry]
        return headed(b"\xc1\xd1", len(entries), b"".join(entries))
    if isinstance(value, Array):
        wide = proton_bytes(value)
        assert wide[0] == 0xF0
        return headed(b"\xe0\xf0", len(value.elements), wide[9:])
    return proton_bytes(value)
