"""The two files, read strictly as RFC 4180, and the first fault in each.

A fault has a number, the record (0 is the header, data records count from 1) and the field (from 1; 0 is none).
Faults are looked for record by record. In a record come first the faults of its form (2, 3, 4), then those of
single fields (6, 5), then those against the records before it (10 to 14).
"""

LONGEST_FILE = 65536
TEXTDATA = frozenset(range(0x20, 0x7F)) - {ord('"'), ord(",")}
QUOTED = TEXTDATA | {ord(","), ord("\r"), ord("\n")}

PROCESSOR_HEADER = [b"kind", b"a", b"b", b"c"]
TASKS_HEADER = [b"rank", b"cycles", b"fixed", b"period", b"deadline"]

LAST_MODE = 16
TOP_SPEED = 10_000
TOP_POWER = 100_000
LONGEST_SWITCH = 20_000
LONGEST_FRAME = 20_000
MOST_FRAMES = 8


class Fault(Exception):
    def __init__(self, number, record, field):
        super().__init__(number, record, field)
        self.number = number
        self.record = record
        self.field = field


def read_field(data, place):
    """The field that begins at a place, without its outer quotes, and where it ends; None if it breaks."""
    if data[place : place + 1] != b'"':
        end = place
        while end < len(data) and data[end] in TEXTDATA:
            end += 1
        return data[place:end], end
    end = place + 1
    while end < len(data):
        if data[end : end + 2] == b'""':
            end += 2
        elif data[end] == ord('"'):
            return data[place + 1 : end], end + 1
        elif data[end] in QUOTED:
            end += 1
        else:
            return None
    return None


def read_record(data, place, record):
    """The fields of the record that begins at a place, and where the next one begins, or None after the last."""
    fields = []
    while True:
        read = read_field(data, place)
        if read is None:
            raise Fault(2, record, len(fields) + 1)
        field, place = read
        fields.append(field)
        if place == len(data):
            return fields, None
        if data[place : place + 2] == b"\r\n":
            following = place + 2
            return fields, following if following < len(data) else None
        if data[place] != ord(","):
            raise Fault(2, record, len(fields))
        place += 1


def read_records(data, header):
    """Yields the number and the fields of each data record, in their order."""
    if len(data) > LONGEST_FILE:
        raise Fault(1, 0, 0)
    place = 0
    record = 0
    while place is not None:
        fields, place = read_record(data, place, record)
        if record == 0:
            if fields != header:
                raise Fault(3, 0, 0)
        else:
            if len(fields) != len(header):
                raise Fault(4, record, 0)
            yield record, fields
        record += 1


def read_numbers(record, fields, first):
    """The numbers of some fields that stand side by side, the first of them at a place."""
    numbers = []
    for at, field in enumerate(fields, first):
        digits = all(ord("0") <= byte <= ord("9") for byte in field)
        if not (1 <= len(field) <= 10 and digits and int(field) <= 4294967295):
            raise Fault(5, record, at)
        numbers.append(int(field))
    return numbers


class Processor:
    """The modes (number: speed and power), the switches (from and to: time), and the frames."""

    def __init__(self):
        self.modes = {}
        self.switches = {}
        self.frames = []

    def add_mode(self, record, number, speed, power):
        if not 1 <= number <= LAST_MODE or number in self.modes:
            raise Fault(10, record, 2)
        if speed > TOP_SPEED:
            raise Fault(11, record, 3)
        if power > TOP_POWER:
            raise Fault(11, record, 4)
        self.modes[number] = (speed, power)

    def add_switch(self, record, start, end, time):
        if start not in self.modes:
            raise Fault(12, record, 2)
        if end not in self.modes or start == end or (start, end) in self.switches:
            raise Fault(12, record, 3)
        if time > LONGEST_SWITCH:
            raise Fault(13, record, 4)
        self.switches[start, end] = time

    def add_frame(self, record, length):
        ninth = len(self.frames) == MOST_FRAMES
        if not 1 <= length <= LONGEST_FRAME or length in self.frames or ninth:
            raise Fault(14, record, 2)
        self.frames.append(length)


def read_processor(data):
    processor = Processor()
    for record, fields in read_records(data, PROCESSOR_HEADER):
        kind = fields[0]
        if kind == b"mode":
            processor.add_mode(record, *read_numbers(record, fields[1:4], 2))
        elif kind == b"switch":
            processor.add_switch(record, *read_numbers(record, fields[1:4], 2))
        elif kind == b"frame":
            for at in (3, 4):
                if fields[at - 1] != b"":
                    raise Fault(6, record, at)
            processor.add_frame(record, *read_numbers(record, fields[1:2], 2))
        else:
            raise Fault(6, record, 1)
    if not processor.modes:
        raise Fault(15, 0, 0)
    return processor


def read_tasks(data):
    """Rank, cycles, fixed time, period and deadline of each record: any numbers."""
    return [tuple(read_numbers(record, fields, 1)) for record, fields in read_records(data, TASKS_HEADER)]


def read_file(path):
    """The bytes of a file; one that cannot be opened counts as empty."""
    try:
        with open(path, "rb") as file:
            return file.read()
    except OSError:
        return b""
