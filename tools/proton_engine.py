"""A conversation with Qpid Proton's engine, in memory: it takes each frame that tests/types writes, and tests/types reads each that it answers."""

from proton import (Array, Condition, Connection, Data, Delivery, Described, Link, Message, Terminus, Transport, UNDESCRIBED, symbol, ubyte, uint,
                    ulong, ushort)
from proton_texts import held
from proton_values import error, of, proton_bytes, shortest, source, symbols, target

CHANNEL = 3
HEADER, SASL_HEADER = b"AMQP\0\1\0\0", b"AMQP\3\1\0\0"
REPORT = Condition("amqp:not-found", "no q", {symbol("k"): 1})
NOTES = {symbol("x-opt-n"): "v"}
# A transaction's state has a number in place of a name.
TRANSACTION = 0x34
STATES = {"received": of(0x23, uint(1), ulong(5)), "accepted": of(0x24), "rejected": of(0x25, error()), "released": of(0x26),
          "modified": of(0x27, True, True, NOTES), "transaction": of(TRANSACTION, b"t", of(0x24))}


def message(number):
    """A message of six sections."""
    made = Message(durable=True, priority=7, ttl=3.0, id=f"id{number}", address="to", subject="s", body=f"text {number}")
    made.instructions, made.annotations, made.properties = {symbol("d"): "one"}, {symbol("m"): ulong(2)}, {"k": "v", "n": number}
    return made.encode()


def transfer(number, more):
    return of(0x14, uint(0), uint(number), b"t%d" % number, uint(0), False, more)


def ours():
    """The frames that we write: the performative and the payload of each."""
    window = of(0x11, None, uint(0), uint(100), uint(100), uint(7), symbols(), symbols("s"), {symbol("k"): True})
    sender = of(0x12, "to", uint(0), False, ubyte(0), ubyte(1), source(), target(), None, False, uint(0), ulong(70000), symbols(),
                symbols("b"), {symbol("k"): uint(1)})
    empty = of(0x28, "q", None, None, None, None, None, None, None, None, symbols(), symbols("after"))
    receiver = of(0x12, "from", uint(1), True, ubyte(2), ubyte(0), empty, of(0x29, "t", None, None, None, None, None, symbols()), None, None,
                  None, ulong(0), symbols(), None, {symbol("l"): "last"})
    yield "open", of(0x10, "client", "host", uint(65536), ushort(9), uint(30000), symbol("en-US"), symbols("en", "de"), symbols(), symbols("w"),
                     {symbol("product"): "x"}), b""
    yield "begin", window, b""
    yield "sender", sender, b""
    yield "receiver", receiver, b""
    for number in range(len(STATES)):
        payload = message(number)
        yield f"first part {number}", transfer(number, True), payload[:40]
        yield f"transfer {number}", of(0x14, uint(0)), payload[40:]
    yield "flow", of(0x13, uint(0), uint(100), uint(len(STATES)), uint(100), uint(1), uint(0), uint(10), uint(0), False, True), b""
    for number, state in enumerate(STATES.values()):
        yield f"disposition {number}", of(0x15, True, uint(number), uint(number), True, state), b""
    yield "settle", of(0x15, False, uint(0), uint(len(STATES) - 1), True), b""
    yield "detach", of(0x16, uint(0), True, error()), b""
    yield "close receiver", of(0x16, uint(1), True), b""
    yield "end", of(0x17, error()), b""
    yield "close", of(0x18, error()), b""


class Peer:
    """Proton's engine as a server."""

    def __init__(self):
        self.connection, self.transport, self.said = Connection(), Transport(Transport.SERVER), b""
        self.sasl = self.transport.sasl()
        self.sasl.allowed_mechs("ANONYMOUS")
        self.transport.bind(self.connection)

    def push(self, bytes_):
        while bytes_:
            taken = self.transport.push(bytes_)
            bytes_ = bytes_[taken or len(bytes_):]
        assert self.transport.condition is None, self.transport.condition
        self.answered()

    def answered(self):
        while (pending := self.transport.pending()) > 0:
            self.said += self.transport.peek(pending)
            self.transport.pop(pending)

    def frames(self):
        """Each frame that Proton wrote: its bytes, its channel (None of SASL), and the bytes of its performative and of its payload."""
        rest = self.said
        while rest:
            if rest.startswith(b"AMQP"):
                rest = rest[8:]
                continue
            frame = rest[:int.from_bytes(rest[:4], "big")]
            body = frame[frame[4] * 4:]
            length = Data().decode(body)
            yield frame, None if frame[5] else int.from_bytes(frame[6:8], "big"), body[:length], body[length:]
            rest = rest[len(frame):]

    def link(self, name):
        link = self.connection.link_head(0)
        while link.name != name:
            link = link.next(0)
        return link


class Conversation:
    def __init__(self, program):
        self.frames = {name: (performative, payload) for name, performative, payload in ours()}
        rows = [f"frame {0 if name in ('open', 'close') else CHANNEL} {proton_bytes(value).hex()} {payload.hex() or '-'}"
                for name, (value, payload) in self.frames.items()]
        answers = program.answers([f"frame_within 512 {proton_bytes(of(0x41, symbol('ANONYMOUS'), b'me', 'host')).hex()} -", *rows])
        assert not any(answer.startswith("<") for answer in answers), answers
        self.init, *written = map(bytes.fromhex, answers)
        self.written = dict(zip(self.frames, written))
        self.peer = Peer()

    def push(self, name):
        self.peer.push(self.written[name])

    def run(self):
        """The whole conversation, after which Proton's answers are in `peer.said`."""
        peer = self.peer
        peer.push(SASL_HEADER + self.init + HEADER)
        assert peer.sasl.outcome == 0 and peer.sasl.mech == "ANONYMOUS"
        self.open()
        self.attach()
        self.receive()
        self.send()
        self.close()

    def open(self):
        peer = self.peer
        self.push("open")
        connection, transport = peer.connection, peer.transport
        assert (connection.remote_container, connection.remote_hostname) == ("client", "host")
        assert (transport.remote_max_frame_size, transport.remote_channel_max, transport.remote_idle_timeout) == (65536, 9, 30.0)
        assert connection.remote_offered_capabilities is None, "an empty field with multiple values is nothing"
        assert list(connection.remote_desired_capabilities) == ["w"] and connection.remote_properties == {"product": "x"}
        connection.container, connection.hostname, connection.properties = "server", "here", {symbol("p"): 1}
        connection.offered_capabilities = Array(UNDESCRIBED, Data.SYMBOL)
        connection.desired_capabilities = symbols("a", "b")
        transport.max_frame_size, transport.channel_max, transport.idle_timeout = 4096, 5, 12.5
        connection.open()
        self.push("begin")
        connection.session_head(0).open()
        peer.answered()

    def attach(self):
        self.push("sender")
        self.push("receiver")
        link, other = self.peer.link("to"), self.peer.link("from")
        assert link.is_receiver and other.is_sender
        assert (link.remote_snd_settle_mode, link.remote_rcv_settle_mode) == (Link.SND_UNSETTLED, Link.RCV_SECOND)
        assert (other.remote_snd_settle_mode, other.remote_rcv_settle_mode) == (Link.SND_MIXED, Link.RCV_FIRST)
        assert (link.remote_max_message_size, link.remote_properties, other.remote_properties) == (70000, {"k": uint(1)}, {"l": "last"})
        taken(link.remote_source, "q", (Terminus.DELIVERIES, Terminus.EXPIRE_NEVER, 300, True, Terminus.DIST_MODE_COPY), {"p": "v"},
              symbol("queue"), symbols("amqp:accepted:list", "amqp:rejected:list"))
        taken(link.remote_target, "t", (Terminus.CONFIGURATION, Terminus.EXPIRE_WITH_LINK, 0, False, Terminus.DIST_MODE_UNSPECIFIED), {"p": None},
              symbols("topic"), None)
        plain = (Terminus.NONDURABLE, Terminus.EXPIRE_WITH_SESSION, 0, False, Terminus.DIST_MODE_UNSPECIFIED)
        taken(other.remote_source, "q", plain, None, symbols("after"), None)
        taken(other.remote_target, "t", plain, None, None, None)
        for link, credit in ((link, len(STATES)), (other, 0)):
            link.source.copy(link.remote_source)
            link.target.copy(link.remote_target)
            link.properties, link.max_message_size = {symbol("mine"): True}, 9999
            link.open()
            if credit:
                link.flow(credit)
        self.peer.answered()

    def receive(self):
        """Proton receives our messages in two parts each, and answers each with another state."""
        link = self.peer.link("to")
        for number, name in enumerate(STATES):
            self.push(f"first part {number}")
            self.push(f"transfer {number}")
            delivery = link.current
            assert delivery.tag == f"t{number}" and not delivery.partial and link.recv(10000) == message(number)
            mine = delivery.local
            if name == "received":
                mine.section_number, mine.section_offset = 1, 5
            elif name == "rejected":
                mine.condition = REPORT
            elif name == "modified":
                mine.failed, mine.undeliverable, mine.annotations = True, True, NOTES
            elif name == "transaction":
                mine.data = STATES[name].value
            link.advance()
            delivery.update(TRANSACTION if name == "transaction" else getattr(Delivery, name.upper()))
            self.peer.answered()
        self.push("settle")

    def send(self):
        """Proton sends us messages, and takes each of our states."""
        link = self.peer.link("from")
        self.push("flow")
        assert link.credit == 10
        deliveries = [sent(link, number) for number in range(len(STATES))]
        self.peer.answered()
        for number, (name, delivery) in enumerate(zip(STATES, deliveries)):
            self.push(f"disposition {number}")
            theirs = delivery.remote
            assert delivery.settled and delivery.remote_state == (TRANSACTION if name == "transaction" else getattr(Delivery, name.upper()))
            assert name != "received" or (theirs.section_number, theirs.section_offset) == (1, 5)
            assert name != "rejected" or theirs.condition == REPORT
            assert name != "modified" or (theirs.failed, theirs.undeliverable, theirs.annotations) == (True, True, NOTES)
            assert name != "transaction" or proton_bytes(theirs.data) == proton_bytes(STATES[name].value)
            delivery.settle()
        self.peer.answered()

    def close(self):
        """Each side ends the link, the session and the connection, with an error."""
        peer = self.peer
        for name, ends in (("detach", [peer.link("to")]), ("close receiver", [peer.link("from")]),
                           ("end", [peer.connection.session_head(0)]), ("close", [peer.connection])):
            self.push(name)
            for end in ends:
                assert end.remote_condition == (None if name == "close receiver" else REPORT), name
                end.condition = REPORT
                end.close()
            peer.answered()

    def check(self, answers):
        """That the performatives of Proton's answers say what was asked of its engine."""
        codes = [int(answer.descriptor) for answer in answers]
        count = len(STATES)
        assert codes == [0x40, 0x44, 0x10, 0x11, 0x12, 0x12, 0x13] + [0x15] * count + [0x14] * count + [0x16, 0x16, 0x17, 0x18], codes
        opened, begun, attached, other, flow = [answer.value for answer in answers[2:7]]
        assert opened == ["server", "here", uint(4096), ushort(5), uint(6250), None, None, None, symbols("a", "b"), {symbol("p"): 1}], opened
        assert begun[0] == CHANNEL and flow[4] == 0 and flow[6] == count
        assert [(one[0], one[2], one[10], one[13]) for one in (attached, other)] == [(name, is_receiver, 9999, {symbol("mine"): True})
                                                                                     for name, is_receiver in (("to", True), ("from", False))]
        for number, (answer, state) in enumerate(zip(answers[7:], STATES.values())):
            assert (answer.value[1], proton_bytes(answer.value[4])) == (number, proton_bytes(state)), answer
        for answer in answers[-4:]:
            assert proton_bytes(answer.value[-1]) == proton_bytes(error()), answer


def sent(link, number):
    delivery = link.delivery(f"p{number}")
    link.send(message(number))
    link.advance()
    return delivery


def taken(terminus, address, modes, properties, capabilities, outcomes):
    """That Proton has a terminus with these fields."""
    assert terminus.address == address
    assert modes == (terminus.durability, terminus.expiry_policy, terminus.timeout, terminus.dynamic, terminus.distribution_mode), address
    assert (held(terminus.properties), held(terminus.capabilities), held(terminus.outcomes)) == (properties, capabilities, outcomes), address
