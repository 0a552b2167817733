"""The other side of the usbredir protocol, for tests/usb/run: the program `usb` as a process, and a peer that sends it anything."""
import os, socket, struct, subprocess, tempfile

HELLO, CONNECT, RESET, INTERFACE, ENDPOINTS, SET_CONFIGURATION, GET_CONFIGURATION, CONFIGURATION = 0, 1, 3, 4, 5, 6, 7, 8
SET_SETTING, GET_SETTING, SETTING, ALLOC_STREAMS, FREE_STREAMS, STREAMS, CANCEL, REJECT, FILTER, CONTROL, BULK = 9, 10, 11, 18, 19, 20, 21, 22, 23, 100, 101
COMMAND, DATA_OUT, STATUS, DATA_IN = 0x01, 0x02, 0x81, 0x82
SUCCESS, CANCELLED, INVALID, STALL, BABBLE = 0, 1, 2, 4, 6
GOOD, CHECK = 0, 2
CAPS = 0xF7
MOST = 524288
WAIT = 30  # seconds for what comes at once, on a busy machine


class Gone(Exception):
    """The disk has closed the connection."""


class Disk:
    """A disk and its peer."""

    def __init__(self, program, room, *words, images=("disk.img",), greets=True, **names):
        self.socket, other = socket.socketpair()
        self.socket.settimeout(WAIT)
        self.told = tempfile.TemporaryFile()
        self.process = subprocess.Popen([program, "usb", *words, *(str(room / one) for one in images)], stdin=other, stdout=other, stderr=self.told,
                                        env={**os.environ, **names})
        other.close()
        self.bytes, self.head, self.next_id, self.replies = b"", 12, 1, {}
        if greets:
            self.greet()

    def greet(self, words=(CAPS,)):
        """Greets and is greeted: what the disk told of itself. It is configured then, with streams."""
        self.socket.sendall(struct.pack("<III", HELLO, 64 + 4 * len(words), 0) + b"a peer".ljust(64, b"\0") + struct.pack(f"<{len(words)}I", *words))
        told = [self.packet()]
        self.head = 16
        told += [self.packet() for _ in range(3)]
        self.send(SET_CONFIGURATION, b"\1")
        told += [self.packet() for _ in range(3)]
        self.send(ALLOC_STREAMS, struct.pack("<II", 0x00060004, 128))
        return [*told, self.packet()]

    # Packets

    def need(self, count):
        while len(self.bytes) < count:
            part = self.socket.recv(1 << 20)
            if not part:
                raise Gone
            self.bytes += part
        taken, self.bytes = self.bytes[:count], self.bytes[count:]
        return taken

    def packet(self):
        kind, length, number = struct.unpack("<III" if self.head == 12 else "<IIQ", self.need(self.head))
        return kind, number, self.need(length)

    def send(self, kind, body=b"", number=None):
        if number is None:
            number, self.next_id = self.next_id, self.next_id + 1
        self.socket.sendall(struct.pack("<IIQ", kind, len(body), number) + body)
        return number

    def take(self):
        """A packet that came, kept under its id where that ends a transfer."""
        kind, number, body = self.packet()
        if kind == BULK:
            endpoint, status, low, stream, high = struct.unpack("<BBHIH", body[:10])
            self.replies.setdefault(number, []).append((status, low | high << 16, body[10:]))
        elif kind == CONTROL:
            self.replies.setdefault(number, []).append((body[3], struct.unpack("<H", body[8:10])[0], body[10:]))
        return kind, number, body

    def reply(self, number):
        """How a transfer ended: its status, the length that is told, and its bytes."""
        while number not in self.replies:
            self.take()
        one = self.replies[number].pop(0)
        if not self.replies[number]:
            del self.replies[number]
        return one

    def waits(self, number):
        """Whether a transfer isn't ended once the disk has done all that came before."""
        self.fence()
        return number not in self.replies

    def fence(self):
        assert self.reply(self.send(CONTROL, struct.pack("<BBBBHHH", 0x80, 0, 0x80, 0, 0, 0, 2))) == (SUCCESS, 2, b"\1\0")

    # Transfers and commands

    def transfer(self, endpoint, stream, length, data=b"", number=None):
        return self.send(BULK, struct.pack("<BBHIH", endpoint, 0, length & 0xFFFF, stream, length >> 16) + data, number)

    def data_in(self, tag, length, number=None):
        return self.transfer(DATA_IN, tag, length, number=number)

    def data_out(self, tag, data, number=None):
        return self.transfer(DATA_OUT, tag, len(data), data, number)

    def cancel(self, number):
        self.send(CANCEL, b"", number)

    def unit(self, data):
        assert self.reply(self.transfer(COMMAND, 0, len(data), data))[0] == SUCCESS

    def command(self, tag, cdb, lun=0):
        self.unit(struct.pack(">BBHBBBB", 1, 0, tag, 0, 0, 0, 0) + struct.pack(">BBHI", 0, lun, 0, 0) + cdb.ljust(16, b"\0"))

    def manage(self, tag, function, other=0, lun=0):
        self.unit(struct.pack(">BBHBBH", 5, 0, tag, function, 0, other) + struct.pack(">BBHI", 0, lun, 0, 0))

    def status(self, tag):
        """A command's status, and its sense key, code and qualifier."""
        return self.answer(self.transfer(STATUS, tag, 112), tag)

    def answer(self, number, tag):
        ended, length, unit = self.reply(number)
        assert ended == SUCCESS and length == len(unit) and unit[0] == 3 and struct.unpack(">H", unit[2:4])[0] == tag, (ended, unit)
        sense = unit[16:]
        return (unit[6],) if not sense else (unit[6], sense[2] & 15, sense[12], sense[13])

    def response(self, tag):
        ended, length, unit = self.reply(self.transfer(STATUS, tag, 112))
        assert ended == SUCCESS and unit[0] == 4, unit
        return unit[7]

    def does(self, tag, cdb, room=0, data=b"", lun=0):
        """A whole command: its status, and what it gave."""
        moved = self.data_in(tag, room) if room else self.data_out(tag, data) if data else None
        self.command(tag, cdb, lun)
        told = self.status(tag)
        return told, self.reply(moved)[2] if room else b""

    def status_of(self, cdb, lun=0):
        self.command(1, cdb, lun)
        return self.status(1)

    # Its end

    def end(self, timeout=WAIT):
        """Closes the connection: the exit status, and what was told on standard error."""
        self.socket.close()
        try:
            status = self.process.wait(timeout)
        except subprocess.TimeoutExpired:
            status = None
            self.process.kill()
            self.process.wait()
        self.told.seek(0)
        return status, self.told.read().decode(errors="replace")
