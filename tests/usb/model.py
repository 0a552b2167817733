"""The disk `uasdisk usb` as tests/usb/random wants it: a second implementation, from the page of the usbredir disk alone.

The packets of both sides; a session, which takes a packet of the peer and gives what comes back; a small SCSI disk behind it. Where the page
leaves a choice, a packet is a Doubt: nothing has changed then, and tests/usb/random sends another one."""
import struct

HELLO, CONNECT, RESET, INTERFACE, ENDPOINTS, SET_CONFIGURATION, GET_CONFIGURATION, CONFIGURATION = 0, 1, 3, 4, 5, 6, 7, 8
SET_SETTING, GET_SETTING, SETTING, ALLOC_STREAMS, FREE_STREAMS, STREAMS, CANCEL, REJECT, FILTER, CONTROL, BULK = 9, 10, 11, 18, 19, 20, 21, 22, 23, 100, 101
COMMAND, DATA_OUT, STATUS, DATA_IN = 0x01, 0x02, 0x81, 0x82
PIPES = (COMMAND, DATA_OUT, STATUS, DATA_IN)
SUCCESS, CANCELLED, INVALID, STALL, BABBLE = 0, 1, 2, 4, 6
TAGS, MOST, CHUNK, MOST_KEPT_UNIT, MOST_UNIT, MOST_PACKET, STREAM_MASK = 128, 524288, 65536, 64, 1024, 134218752, 0x00060004
ABORT_TASK, UNIT_RESET, QUERY_TASK = 0x01, 0x08, 0x80
COMPLETE, UNREADABLE, NOT_SUPPORTED, SUCCEEDED, INCORRECT_LUN, OVERLAPPED = 0, 2, 4, 8, 9, 10
POWER_ON, WAS_RESET = (6, 0x29, 0), (6, 0x29, 3)
SERIAL = 7  # of unit 0, by --serial
NEEDED = (0, 1, 4, 5, 6)  # the peer's capabilities
OURS = 0x77

# Packets

head, bulk_head, control_head = struct.Struct("<IIQ"), struct.Struct("<BBHIH"), struct.Struct("<BBBBHHH")
FIELDS = {RESET: 0, SET_CONFIGURATION: 1, GET_CONFIGURATION: 0, SET_SETTING: 2, GET_SETTING: 1, ALLOC_STREAMS: 8, FREE_STREAMS: 4, CANCEL: 0, REJECT: 0}
NAMES = {value: name for name, value in list(globals().items())[: list(globals()).index("BULK") + 1] if isinstance(value, int)}


class Fault(Exception):
    """The line by which a session ends."""


class Doubt(Exception):
    """A packet whose answer the page leaves open."""


def packed(kind, number, body=b""):
    return head.pack(kind, len(body), number) + body


def hello(version, words):
    """A hello, whose id has four bytes."""
    return struct.pack("<III", HELLO, 64 + 4 * len(words), 0) + version.ljust(64, b"\0") + struct.pack(f"<{len(words)}I", *words)


def bulk(endpoint, status, length, stream, data=b""):
    return bulk_head.pack(endpoint, status, length & 0xFFFF, stream, length >> 16) + data


def bulk_in(body):
    """Endpoint, status, length, stream and data of a bulk packet."""
    endpoint, status, low, stream, high = bulk_head.unpack_from(body)
    return endpoint, status, low | high << 16, stream, body[10:]


def told(packet):
    """A packet of either side in words, for a difference."""
    if len(packet) < 16:
        return packet.hex()
    kind, length, number = head.unpack_from(packet)
    text, body = f"{NAMES.get(kind, kind)} id {number:x}", packet[16 : 16 + length]
    if kind == BULK and len(body) >= 10:
        endpoint, status, size, stream, data = bulk_in(body)
        return f"{text} endpoint {endpoint:02x} status {status} length {size} stream {stream:x} data {len(data)}: {data[:48].hex()}"
    return f"{text}: {body[:64].hex()}"


def fault_of(kind, length, body):
    """The line of a packet that isn't one; None where it is. Its body may be cut off behind its fields."""
    if kind not in FIELDS and kind not in (FILTER, CONTROL, BULK):
        return "usb: unexpected packet"
    if length > MOST_PACKET or kind in FIELDS and length != FIELDS[kind]:
        return "usb: bad length"
    if kind in (CONTROL, BULK):
        if length < 10:
            return "usb: bad length"
        size = bulk_in(body)[2] if kind == BULK else control_head.unpack_from(body)[6]
        if length != 10 + (0 if body[0] & 0x80 else size):
            return "usb: bad length"
    return "usb: rejected" if kind == REJECT else None


def hello_fault(packet):
    """The line of a first packet."""
    kind, length, _ = struct.unpack_from("<III", packet)
    if kind != HELLO or not 68 <= length <= 128 or length % 4:
        return "usb: bad hello"
    word = struct.unpack_from("<I", packet, 76)[0]
    return None if all(word >> one & 1 for one in NEEDED) else "usb: missing capability"


# What the disk tells of itself

INTERFACE_BODY = struct.pack("<I", 1) + bytes(32) + b"\x08" + bytes(31) + b"\x06" + bytes(31) + b"\x62" + bytes(31)
TWO_TYPES = bytes.fromhex("000202") + b"\xff" * 13
TWO_SIZES = bytes.fromhex("000000040004") + bytes(26)
ENDPOINTS_BODY = 2 * TWO_TYPES + bytes(64) + 2 * TWO_SIZES + bytes(8) + bytes.fromhex("80000000") + bytes(56) + 2 * bytes.fromhex("80000000") + bytes(52)
CONNECT_BODY = struct.pack("<BBBBHHH", 3, 0, 0, 0, 0x46F4, 3, 0)
OUR_HELLO = hello(b"uasdisk usb", [OURS])
DEVICE = bytes([18, 1, 0, 3, 0, 0, 0, 9, 0xF4, 0x46, 3, 0, 0, 0, 1, 2, 3, 1])
ENDPOINT = lambda address, streams, usage: bytes([7, 5, address, 2, 0, 4, 0, 6, 0x30, 15, streams, 0, 0, 4, 0x24, usage, 0])
CONFIGURED = bytes([9, 2, 86, 0, 1, 1, 0, 0xC0, 0, 9, 4, 0, 0, 4, 8, 6, 0x62, 0])
CONFIGURED += ENDPOINT(COMMAND, 0, 1) + ENDPOINT(STATUS, 7, 2) + ENDPOINT(DATA_IN, 7, 3) + ENDPOINT(DATA_OUT, 7, 4)
BOS = bytes([5, 15, 22, 0, 2, 7, 16, 2, 2, 0, 0, 0, 10, 16, 3, 0, 8, 0, 3, 0, 0, 0])
STRING = lambda text: bytes([2 + 2 * len(text), 3]) + text.encode("utf-16le")
STRINGS = [bytes([4, 3, 9, 4]), STRING("SIMDISK"), STRING("UAS SIM DISK"), STRING("%08d" % SERIAL)]
DESCRIPTORS = {0x100: DEVICE, 0x200: CONFIGURED, 0xF00: BOS, **{0x300 + index: one for index, one in enumerate(STRINGS)}}


class Endpoint0:
    """USB 3.2 chapter 9: what a Setup packet does; its bytes, or DONE, RESTARTED, None for a stall."""

    DONE, RESTARTED = "done", "restarted"

    def __init__(self):
        self.configured, self.u1, self.u2, self.halts = False, False, False, set()

    def control(self, type_, request, value, index, length):
        if type_ == 0x80:
            if request == 6:
                return DESCRIPTORS[value][:length] if value in DESCRIPTORS else None
            known = {0: bytes([1 + 4 * self.u1 + 8 * self.u2, 0]), 8: bytes([self.configured])}
            return known[request][:length] if request in known and value == index == 0 else None
        if type_ == 0x00:
            if request in (1, 3) and length == 0 and value in (48, 49) and self.configured:
                setattr(self, "u1" if value == 48 else "u2", request == 3)
                return self.DONE
            if request == 9 and value < 2 and length == 0:
                self.configured, self.halts = value == 1, set()
                return self.RESTARTED
            return self.DONE if (request, length) in ((48, 6), (49, 0)) else None
        if type_ == 0x82:
            if request or value or index % 128 and index not in PIPES:
                return None
            return bytes(2)[:length] if index % 128 == 0 else bytes([index in self.halts, 0])[:length] if self.configured else None
        if not self.configured:
            return None
        if type_ == 0x81:
            return {0: bytes(2), 10: bytes(1)}[request][:length] if request in (0, 10) and value == index == 0 else None
        if type_ == 0x01 and value == 0 and length == 0:
            if request in (1, 3) and index % 256 == 0:
                return self.DONE
            if request == 11 and index == 0:
                self.halts = set()
                return self.RESTARTED
        if type_ == 0x02 and value == 0 and length == 0 and index in PIPES and request in (1, 3):
            self.halts = self.halts | {index} if request == 3 else self.halts - {index}
            return self.DONE
        return None


# The SCSI disk


def sense_bytes(key, code, qualifier):
    return bytes([0x70, 0, key, 0, 0, 0, 0, 10, 0, 0, 0, 0, code, qualifier, 0, 0, 0, 0])


def sense(tag, key=0, code=0, qualifier=0):
    """The unit with which a command ends."""
    data = sense_bytes(key, code, qualifier) if key else b""
    return struct.pack(">BBHHB7xH", 3, 0, tag, 0, 2 if key else 0, len(data)) + data


def response(tag, code):
    return struct.pack(">BBH3xB", 4, 0, tag, code)


def is_readable(unit):
    kind, size = unit[0], len(unit)
    if kind == 1:
        return size == 32 and unit[1] == 0 and not any(unit[4:8])
    if kind == 5:
        return size == 16 and unit[1] == unit[5] == 0
    if kind == 4:
        return size == 8 and unit[1] == 0 and not any(unit[4:7])
    return kind == 3 and 16 <= size <= 112 and unit[1] == 0 and not any(unit[4:6]) and not any(unit[7:14]) and struct.unpack_from(">H", unit, 14)[0] == size - 16


def lun_in(unit):
    """The number of a LUN; one that no unit has for what isn't one."""
    return unit[9] if unit[8] == 0 and not any(unit[10:16]) else -1


class Unit:
    """A logical unit: its blocks, and an attention."""

    def __init__(self, image, block_bytes, bad, read_only):
        self.image, self.block_bytes, self.bad, self.read_only = image, block_bytes, bad, read_only
        self.blocks, self.attention = len(image) // block_bytes, POWER_ON

    def is_bad(self, block, count):
        return self.bad is not None and block <= self.bad < block + count


GIVES, TAKES, ENDS = 1, 2, 3


class Task:
    """What a tag has: the bytes that it gives now or has taken of a chunk, and the blocks behind them; or the unit that ends it."""

    __slots__ = ("tag", "number", "unit", "wants", "bytes", "at", "size", "block", "left", "answer")

    def __init__(self, tag, answer, number=None):
        self.tag, self.answer, self.number = tag, answer, number  # of a command: the number of its logical unit
        self.unit, self.wants, self.left, self.at = None, ENDS, 0, 0

    def gives(self, data):
        self.wants, self.bytes, self.at = GIVES if data else ENDS, data, 0

    def reads(self, unit, block, count):
        self.unit, self.block, self.left = unit, block, count
        self.ask_read()

    def ask_read(self):
        """The next chunk; the command ends where there is none, or at a bad block."""
        unit, size = self.unit, 0 if self.unit is None else self.unit.block_bytes
        count = min(self.left, CHUNK // size) if size else 0
        if count == 0:
            self.wants = ENDS
        elif unit.is_bad(self.block, count):
            self.wants, self.answer = ENDS, sense(self.tag, 3, 0x11, 0)
        else:
            self.gives(bytes(memoryview(unit.image)[self.block * size : (self.block + count) * size]))
            self.block, self.left = self.block + count, self.left - count

    def writes(self, unit, block, count):
        self.unit, self.block, self.left = unit, block, count
        self.next_take()

    def next_take(self):
        self.size, self.bytes = min(self.left, CHUNK // self.unit.block_bytes) * self.unit.block_bytes, bytearray()
        self.wants = TAKES if self.size else ENDS

    def ask_write(self):
        size = self.unit.block_bytes
        count = self.size // size
        if self.unit.is_bad(self.block, count):
            self.wants, self.answer = ENDS, sense(self.tag, 3, 0x0C, 0)
            return
        self.unit.image[self.block * size : self.block * size + self.size] = self.bytes
        self.block, self.left = self.block + count, self.left - count
        self.next_take()


NAMES_BYTES = b"SIMDISK UAS SIM DISK    "


def pages(number):
    serial = b"%08d" % (SERIAL + number)
    return {
        0x00: bytes.fromhex("000000060080 83b0b1b2"), 0x80: bytes.fromhex("00800008") + serial,
        0x83: bytes.fromhex("00830030 02010020") + NAMES_BYTES + serial + bytes.fromhex("01030008") + struct.pack(">Q", 3 << 60 | SERIAL + number),
        0xB0: bytes.fromhex("00b0003c00000008 0000040000000400") + bytes(48), 0xB1: bytes.fromhex("00b1003c0001") + bytes(58), 0xB2: bytes.fromhex("00b2000400000000"),
    }


class Scsi:
    """Logical units, and what a command to one begins."""

    def __init__(self, units):
        self.units, self.pages = units, [pages(number) for number in range(len(units))]

    def begun(self, tag, number, cdb):
        """The task of a command."""
        task, code = Task(tag, sense(tag), number), cdb[0]
        unit = self.units[number] if 0 <= number < len(self.units) else None
        fault = None
        if code == 0x12:
            fault = self.inquiry(task, unit, number, cdb)
        elif code == 0xA0:
            fault = self.luns(task, cdb)
        elif code == 0x03:
            if cdb[1] & 1:
                fault = 5, 0x24, 0
            else:
                key = (5, 0x25, 0) if unit is None else unit.attention or (0, 0, 0)
                task.gives(sense_bytes(*key)[: cdb[4]])
                if unit is not None:
                    unit.attention = None
        elif unit is None:
            fault = 5, 0x25, 0
        elif unit.attention is not None:
            fault, unit.attention = unit.attention, None
        elif code == 0x25:
            task.gives(struct.pack(">II", unit.blocks - 1, unit.block_bytes))
        elif code in (0x28, 0x2A, 0x35):
            fault = self.on_blocks(task, unit, code, cdb)
        elif code != 0x00:
            fault = 5, 0x20, 0
        if fault is not None:
            task.answer = sense(tag, *fault)
        return task

    def inquiry(self, task, unit, number, cdb):
        if cdb[1] & 1:
            data = (self.pages[number] if unit is not None else self.pages[0]).get(cdb[2])
        else:
            data = bytes.fromhex("000006021f000002") + NAMES_BYTES + b"0001" if cdb[2] == 0 else None
        if data is None:
            return 5, 0x24, 0
        task.gives(((data if unit is not None else b"\x7f" + data[1:]))[: cdb[3] << 8 | cdb[4]])

    def luns(self, task, cdb):
        room = struct.unpack_from(">I", cdb, 6)[0]
        if cdb[2] > 2 or room < 16:
            return 5, 0x24, 0
        listed = b"" if cdb[2] == 1 else b"".join(bytes([0, number, 0, 0, 0, 0, 0, 0]) for number in range(len(self.units)))
        task.gives((struct.pack(">II", len(listed), 0) + listed)[:room])

    def on_blocks(self, task, unit, code, cdb):
        block, count = struct.unpack_from(">I", cdb, 2)[0], cdb[7] << 8 | cdb[8]
        if code != 0x35 and (cdb[1] >> 5 or count * unit.block_bytes > MOST):
            return 5, 0x24, 0
        if code == 0x2A and unit.read_only:
            return 7, 0x27, 0
        if block >= unit.blocks or block + count > unit.blocks:
            return 5, 0x21, 0
        if code == 0x28:
            task.reads(unit, block, count)
        elif code == 0x2A:
            task.writes(unit, block, count)

    def is_open(self, number, cdb):
        """Whether the page leaves open what a command is answered with."""
        unit, code = self.units[number] if 0 <= number < len(self.units) else None, cdb[0]
        if unit is None:
            return code == 0x03 and cdb[1] & 1 or code == 0x12 and cdb[1] & 1 and cdb[2] in (0x80, 0x83, 0xB0)
        if code == 0x12 and cdb[1] & 1 and cdb[2] == 0xB0:
            return unit.block_bytes != 512
        return code == 0x2A and unit.read_only and struct.unpack_from(">I", cdb, 2)[0] + (cdb[7] << 8 | cdb[8]) >= unit.blocks


# The session


class Held:
    """A transfer that waits at its place."""

    __slots__ = ("number", "length", "data", "moved", "parts")

    def __init__(self, number, length, data):
        self.number, self.length, self.data, self.moved, self.parts = number, length, data, 0, []


class Kept:
    """An answer that may be told again. In doubt: the page leaves open whether it is still kept."""

    __slots__ = ("number", "length", "body", "unit", "lost", "in_doubt")

    def __init__(self, number, length, body, unit=None):
        self.number, self.length, self.body, self.unit, self.lost, self.in_doubt = number, length, body, unit, False, False


class Session:
    """A session behind the hellos. `take` gives the packets that come back: bytes, or a list of those whose order is open."""

    def __init__(self, units):
        self.scsi, self.usb, self.tasks, self.held, self.kept, self.answers = Scsi(units), Endpoint0(), {}, {}, {}, []
        self.seen = {}  # how often each thing was met

    def begin(self):
        """What comes back for a good hello."""
        return [packed(INTERFACE, 0, INTERFACE_BODY), packed(ENDPOINTS, 0, ENDPOINTS_BODY), packed(CONNECT, 0, CONNECT_BODY)]

    def take(self, kind, number, body):
        fault = fault_of(kind, len(body), body)
        if fault:
            raise Fault(fault)
        self.answers = []
        if kind == BULK:
            self.bulk(number, *bulk_in(body))
        elif kind == CANCEL:
            self.cancel(number)
        elif kind == CONTROL:
            self.control(number, body)
        elif kind != FILTER:
            self.other(kind, number, body)
        return self.answers

    def met(self, name):
        self.seen[name] = self.seen.get(name, 0) + 1

    # Packets other than transfers

    def forget(self):
        self.kept.clear()

    def restart(self):
        self.tasks.clear()
        self.forget()

    def other(self, kind, number, body):
        answer = lambda *packet: self.answers.append(packed(*packet))
        if kind == RESET:
            self.usb = Endpoint0()
            self.restart()
            for unit in self.scsi.units:
                unit.attention = POWER_ON
        elif kind == SET_CONFIGURATION:
            if body[0] > 1:
                raise Doubt
            self.usb.control(0x00, 9, body[0], 0, 0)
            self.restart()
            answer(INTERFACE, 0, INTERFACE_BODY)
            answer(ENDPOINTS, 0, ENDPOINTS_BODY)
            answer(CONFIGURATION, number, bytes([SUCCESS]) + body)
        elif kind == GET_CONFIGURATION:
            answer(CONFIGURATION, number, bytes([SUCCESS, self.usb.configured]))
        elif kind in (SET_SETTING, GET_SETTING):
            if not self.usb.configured or any(body):
                raise Doubt
            if kind == SET_SETTING:
                self.usb.control(0x01, 11, 0, 0, 0)
                self.restart()
                answer(ENDPOINTS, 0, ENDPOINTS_BODY)
            answer(SETTING, number, bytes([SUCCESS, 0, 0]))
        elif kind == ALLOC_STREAMS:
            mask, streams = struct.unpack("<II", body)
            done = mask & ~STREAM_MASK == 0 and 1 <= streams <= TAGS
            if done:
                self.forget()
            else:
                self.doubt_kept()
            answer(STREAMS, number, body + bytes([SUCCESS if done else INVALID]))
        elif kind == FREE_STREAMS:
            self.forget()
            answer(STREAMS, number, body + bytes(4) + bytes([SUCCESS]))

    def control(self, number, body):
        endpoint, request, type_, _, value, index, length = control_head.unpack_from(body)
        if endpoint & 0x7F:
            raise Doubt
        status, told, data = INVALID, 0, b""
        if endpoint == type_ & 0x80:
            done = self.usb.control(type_, request, value, index, length)
            status, told = (STALL, 0) if done is None else (SUCCESS, length)
            if isinstance(done, bytes):
                data, told = done, len(done)
            if done is Endpoint0.RESTARTED:
                self.restart()
        self.answers.append(packed(CONTROL, number, control_head.pack(endpoint, request, type_, status, value, index, told) + data))

    def cancel(self, number):
        places = [place for place, held in self.held.items() if held.number == number]
        for place in places:
            del self.held[place]
        gone = [packed(BULK, number, bulk(place >> 8, CANCELLED, 0, place & 0xFF)) for place in places]
        if gone:
            self.met("cancelled")
            self.answers.append(gone if len(gone) > 1 else gone[0])
        else:
            for kept in self.kept.values():
                if kept.number == number:
                    kept.lost = True

    # Transfers

    def bulk(self, number, endpoint, _, length, stream, data):
        if endpoint not in PIPES or not self.usb.configured:
            self.end_at_once(number, endpoint, INVALID, 0, stream)
        elif endpoint in self.usb.halts:
            self.doubt_at(endpoint, stream, data)
            self.met("halted")
            self.end_at_once(number, endpoint, STALL, 0, stream)
        elif endpoint == COMMAND:
            self.command(number, length, stream, data)
        else:
            self.transfer(number, endpoint, length, stream, data)

    def end_at_once(self, number, endpoint, status, length, stream):
        self.answers.append(packed(BULK, number, bulk(endpoint, status, length, stream)))

    def transfer(self, number, endpoint, length, stream, data):
        place = endpoint << 8 | stream
        kept = self.kept.get(place) if stream <= TAGS else None
        if kept and kept.lost and kept.number == number and kept.length == length:
            self.again(number, kept)
        elif not 1 <= stream <= TAGS or place in self.held or endpoint == DATA_OUT and length > MOST:
            self.doubt_at(endpoint, stream, data)
            self.met("stalled")
            self.end_at_once(number, endpoint, STALL, 0, stream)
        else:
            self.doubt_room(place, length)
            self.kept.pop(place, None)
            self.doubt_other_way(place)
            if length == 0:
                self.end_at_once(number, endpoint, SUCCESS, 0, stream)
            else:
                self.held[place] = Held(number, length, data)
                self.serve(stream)

    def again(self, number, kept):
        if kept.in_doubt:
            raise Doubt
        kept.lost = False
        self.met("told again")
        self.answers.append(packed(BULK, number, kept.body))

    def command(self, number, length, stream, data):
        unit, tag = data[:MOST_UNIT], struct.unpack_from(">H", data, 2)[0] if len(data) >= 4 else 0
        body = bulk(COMMAND, SUCCESS, length, stream)
        if not 1 <= tag <= TAGS:
            self.answers.append(packed(BULK, number, body))
            return
        kept = self.kept.get(COMMAND << 8 | tag)
        if kept and kept.lost and kept.number == number and kept.unit == data:
            if kept.body != body:
                raise Doubt
            self.again(number, kept)
            return
        self.refuse_open(unit, tag)
        if length <= MOST_KEPT_UNIT:
            self.kept[COMMAND << 8 | tag] = Kept(number, length, body, data)
        else:
            self.kept.pop(COMMAND << 8 | tag, None)
        self.answers.append(packed(BULK, number, body))
        self.receive(unit, tag)
        self.serve(tag)
        if unit[0] == 5 and len(unit) >= 8 and (unit[4] == UNIT_RESET or unit[4] == ABORT_TASK and unit[2:4] == unit[6:8]):
            self.kept[COMMAND << 8 | tag] = Kept(number, length, body, data)  # it forgets its own answer, or doesn't
            self.doubt_kept(tag)

    def refuse_open(self, unit, tag):
        """Before anything is done."""
        if not is_readable(unit):
            return
        if tag in self.tasks and unit[0] in (1, 5):
            held = self.held.get(STATUS << 8 | tag)
            if held and held.length < 8:
                raise Doubt
        elif unit[0] == 1 and self.scsi.is_open(lun_in(unit), unit[16:]):
            raise Doubt

    def receive(self, unit, tag):
        """A unit that names a stream."""
        if not is_readable(unit):
            self.met("unreadable")
            if unit[0] == 5 and len(unit) >= 8:
                self.doubt_managed(unit)
            if tag not in self.tasks:
                self.tasks[tag] = Task(tag, response(tag, UNREADABLE))
        elif unit[0] not in (1, 5):
            self.met("not for a device")
        elif tag in self.tasks:
            self.overlap(unit, tag)
        elif unit[0] == 1:
            self.tasks[tag] = self.scsi.begun(tag, lun_in(unit), unit[16:])
            self.met(f"command {unit[16]:02x}")
        else:
            self.met("managed")
            self.tasks[tag] = Task(tag, response(tag, self.managed(unit)))

    def overlap(self, unit, tag):
        self.met("overlap")
        if unit[0] == 5:
            self.doubt_managed(unit)
        place = STATUS << 8 | tag
        if place in self.held:
            self.met("overlap told")
            self.end(place, SUCCESS, 8, response(tag, OVERLAPPED))
            self.kept[place].in_doubt = True

    def managed(self, unit):
        """What a Task Management does, and the code of its Response."""
        function, other, number = unit[4], unit[6] << 8 | unit[7], lun_in(unit)
        if function not in (ABORT_TASK, UNIT_RESET, QUERY_TASK):
            return NOT_SUPPORTED
        if not 0 <= number < len(self.scsi.units):
            self.doubt_managed(unit)
            return INCORRECT_LUN
        there = other in self.tasks and self.tasks[other].number == number
        if function == QUERY_TASK:
            return SUCCEEDED if there else COMPLETE
        if function == ABORT_TASK:
            if there:
                self.met("aborted")
                del self.tasks[other]
            for pipe in PIPES:
                self.kept.pop(pipe << 8 | other, None)
        else:
            self.tasks = {tag: task for tag, task in self.tasks.items() if task.number != number}
            self.forget()
            reset = self.scsi.units[number]
            reset.attention = reset.attention or WAS_RESET
        return COMPLETE

    # What is kept in doubt

    def doubt_kept(self, tag=None):
        for place, kept in self.kept.items():
            if tag is None or place & 0xFF == tag:
                kept.in_doubt = True

    def doubt_managed(self, unit):
        """A Task Management that wasn't done: it may have forgotten what it names."""
        if unit[4] == UNIT_RESET:
            self.doubt_kept()
        elif unit[4] == ABORT_TASK:
            if unit[6] == 0:
                self.doubt_kept(unit[7])

    def doubt_at(self, endpoint, stream, data):
        """A transfer that was refused: it may count as one that came there."""
        if endpoint == COMMAND:
            stream = struct.unpack_from(">H", data, 2)[0] if len(data) >= 4 else 0
        if stream <= TAGS:
            kept = self.kept.get(endpoint << 8 | stream)
            if kept:
                kept.in_doubt = True
            self.doubt_other_way(endpoint << 8 | stream)

    def doubt_room(self, place, length):
        """A tag has so much memory for both ways. The page leaves open what becomes of more."""
        other = self.held.get({DATA_IN: DATA_OUT, DATA_OUT: DATA_IN}.get(place >> 8, 0) << 8 | place & 0xFF)
        if other and min(length, MOST) + min(other.length, MOST) > MOST:
            raise Doubt

    def doubt_other_way(self, place):
        """One answer may be kept for the data of a tag, or one for each way."""
        other = {DATA_IN: DATA_OUT, DATA_OUT: DATA_IN}.get(place >> 8)
        if other and (kept := self.kept.get(other << 8 | place & 0xFF)):
            kept.in_doubt = True

    # Serving

    def end(self, place, status, length, data=b""):
        held = self.held.pop(place)
        body = bulk(place >> 8, status, length, place & 0xFF, data)
        self.doubt_other_way(place)
        self.kept[place] = Kept(held.number, held.length, body)
        self.answers.append(packed(BULK, held.number, body))

    def end_moved(self, place):
        held = self.held[place]
        self.end(place, SUCCESS, held.moved, b"".join(held.parts))

    def serve(self, tag):
        task = self.tasks.get(tag)
        if task is None:
            return
        into, out, status = DATA_IN << 8 | tag, DATA_OUT << 8 | tag, STATUS << 8 | tag
        while task.wants != ENDS:
            if task.wants == GIVES:
                held = self.held.get(into)
                if held is None:
                    return
                part = task.bytes[task.at : task.at + held.length - held.moved]
                held.parts.append(part)
                held.moved += len(part)
                task.at += len(part)
                if held.moved == held.length:
                    self.end_moved(into)
                if task.at == len(task.bytes):
                    task.ask_read()
            else:
                held = self.held.get(out)
                if held is None:
                    return
                part = held.data[held.moved : held.moved + task.size - len(task.bytes)]
                held.moved += len(part)
                task.bytes += part
                if held.moved == held.length:
                    self.end_moved(out)
                if len(task.bytes) == task.size:
                    task.ask_write()
        if into in self.held and out in self.held:
            self.end_moved(into)
            self.end_moved(out)
            self.kept[into].in_doubt = self.kept[out].in_doubt = True
            self.answers[-2:] = [self.answers[-2:]]
            self.met("both ways")
        elif into in self.held:
            self.end_moved(into)
        elif out in self.held:
            self.end_moved(out)
        if status in self.held:
            size = len(task.answer)
            if self.held[status].length < size:
                self.met("babble")
                self.end(status, BABBLE, 0)
            else:
                del self.tasks[tag]
                self.met("ended")
                self.end(status, SUCCESS, size, task.answer)
