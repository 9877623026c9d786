"""Random pairs of files: good ones, of several kinds, and damaged ones."""

from files import LONGEST_FILE, Processor
from plan import pair_streams

PROCESSOR_HEADER = "kind,a,b,c"
TASKS_HEADER = "rank,cycles,fixed,period,deadline"


def speeds_and_powers(rng, count):
    """Modes of which faster ones mostly draw more, with ties and with speed 0 now and then."""
    style = rng.choice(["convex", "convex", "convex", "ties", "any"])
    speeds = [rng.choice([0, rng.randint(1, 9), rng.randint(1, 60), rng.randint(1, 60)]) for _ in range(count)]
    if style == "convex":
        return [(speed, speed * speed // 4 + rng.randint(0, 3) + 10) for speed in speeds]
    if style == "ties":
        return [(speed, rng.choice([5, 10, 10 + speed])) for speed in speeds]
    return [(speed, rng.randint(0, 100)) for speed in speeds]


def good_processor(rng):
    """The records of a processor file, as lists of fields."""
    count = rng.choice([1, 2, 2, 2, 3, 3, 4, 6, 16])
    longest = rng.choice([60, 240, 240, 240, 20000]) if count <= 3 else 60 if count <= 6 else 16
    numbers = rng.sample(range(1, 17), count)
    modes = [
        ["mode", number, speed, power] for number, (speed, power) in zip(numbers, speeds_and_powers(rng, count))
    ]
    listed = rng.choice([0.5, 0.9, 1, 1, 1])
    slow = rng.choice([0, 1, 3, longest // 12, longest // 8, longest // 4])
    switches = [
        ["switch", start, end, rng.randint(0, slow)]
        for start in numbers
        for end in numbers
        if start != end and rng.random() < listed
    ]
    lengths = rng.sample(range(max(1, longest // 3), longest + 1), rng.choice([0, 1, 1, 2, 3, 8] if longest <= 240 else [1, 2]))
    frames = [["frame", length, "", ""] for length in lengths]
    if rng.random() < 0.3:
        rng.shuffle(switches)
    rest = switches + frames
    if rng.random() < 0.3:
        rng.shuffle(rest)
    return modes + rest


def figures_of(records):
    """The highest speed and the longest frame of a processor."""
    top = max((record[2] for record in records if record[0] == "mode"), default=0)
    frame = max((record[1] for record in records if record[0] == "frame"), default=0)
    return top, frame


def one_task(rng, rank, period, share, top):
    """A task that takes about a share of the highest speed."""
    deadline = period if rng.random() < 0.6 else rng.randint((period + 1) // 2, period)
    work = max(1, int(share * top * deadline))
    fixed = rng.randint(0, max(1, int(share * deadline) // 2)) if rng.random() < 0.4 else 0
    cycles = max(1, work - fixed * top)
    return [rank, cycles, fixed, period, deadline]


def good_tasks(rng, processor):
    """The records of a task file: a set near to what fits, with a few that must be turned away."""
    top, frame = figures_of(processor)
    base = rng.choice([1, 2, 5, max(1, frame // 12), max(1, frame // 7), max(1, frame // 4), max(1, frame)])
    periods = [base * factor for factor in rng.choice([[2, 3, 4, 6, 12], [4, 8, 16], [6, 10, 15, 30], [10, 20, 40]])]
    count = rng.choice([0, 1, 2, 3, 4, 6, 10, 20])
    whole = rng.choice([0.3, 0.6, 0.8, 0.9, 1.0, 1.3])
    ranks = rng.sample(range(1, 256), count)
    records = []
    for rank in ranks:
        share = whole / count * rng.choice([0.5, 1, 1, 1.5])
        records.append(one_task(rng, rank, rng.choice(periods), share, top))
    for _ in range(rng.choice([0, 0, 1, 2])):
        records.insert(rng.randint(0, len(records)), odd_task(rng, ranks, periods))
    return records


def processor_of(records):
    """The processor that some records say."""
    processor = Processor()
    for kind, *figures in records:
        if kind == "mode":
            processor.add_mode(0, *figures)
        elif kind == "switch":
            processor.add_switch(0, *figures)
        else:
            processor.add_frame(0, figures[0])
    return processor


def tight_tasks(rng, records):
    """A few tasks whose work until a deadline is just what some pair supplies, or a cycle more or less."""
    streams = [stream for stream in pair_streams(processor_of(records)) if stream.high_times]
    if not streams:
        return good_tasks(rng, records)
    drive = rng.choice(list(rng.choice(streams)))
    frame = drive.frame
    tasks = []
    for rank in rng.sample(range(1, 256), rng.choice([1, 1, 2, 3])):
        period = frame * rng.randint(1, 3)
        deadline = rng.randint(1, rng.choice([frame, period]))
        if frame <= 240 and rng.random() < 0.5:
            period = rng.randint(deadline, 2 * deadline)
        fixed = rng.choice([0, 0, 0, rng.randint(0, deadline // 4)])
        work = drive.supply(deadline)
        for _, other_cycles, other_fixed, other_period, other_deadline in tasks:
            if other_deadline <= deadline:
                jobs = (deadline - other_deadline) // other_period + 1
                work -= jobs * (other_cycles + other_fixed * drive.high_speed)
        cycles = work - fixed * drive.high_speed + rng.choice([-1, 0, 0, 0, 1])
        tasks.append([rank, max(1, cycles), fixed, period, deadline])
    return tasks


def odd_task(rng, ranks, periods):
    """A task that is mostly refused: a repeated rank, a figure outside of its limits, a period outside of the span."""
    period = rng.choice(periods)
    kind = rng.randint(0, 9)
    if kind < 3:
        return [rng.choice(ranks or [1]), 1, 0, period, period]
    if kind < 5:
        return [rng.choice([251, 252]), 1, 0, rng.choice([997, 991, 997, 991, 999983, 999983, 1000000]), rng.choice([991, 50])]
    good = [rng.choice([253, 254, 255]), 1, 0, period, period]
    at, value = rng.choice(
        [(0, 0), (0, 256), (1, 0), (1, 100000000), (1, 100000001), (2, 1000000), (2, 1000001), (3, 0), (3, 1000001), (4, 0), (4, period + 1)]
    )
    good[at] = value
    return good


def field_text(rng, field):
    """A field as text: mostly plain, now and then with zeros in front or in quotes."""
    text = str(field)
    if text.isdigit() and rng.random() < 0.02:
        text = text.zfill(rng.randint(1, 10))
    return f'"{text}"' if rng.random() < 0.02 else text


def file_bytes(rng, header, records):
    lines = [header] + [",".join(field_text(rng, field) for field in record) for record in records]
    end = "" if rng.random() < 0.15 else "\r\n"
    return ("\r\n".join(lines) + end).encode()


def good_pair(rng):
    processor = good_processor(rng)
    tasks = rng.choice([good_tasks, tight_tasks])(rng, processor)
    return file_bytes(rng, PROCESSOR_HEADER, processor), file_bytes(rng, TASKS_HEADER, tasks)


# Damage to the records of a file, each for a fault, before they are written.

NO_NUMBERS = ["", "x", "-1", "+1", " 1", "1 ", "1.0", "12345678901", "00000000001", "4294967296", "9999999999", "0x1", "~", "!", "#", "1+", "1-"]


def some_record(rng, records, kind=None):
    fitting = [record for record in records if kind is None or record[0] == kind]
    return rng.choice(fitting) if fitting else None


def set_field(kind, at, values):
    """A damage that puts one of some values into a field of a record of a kind."""

    def damage(rng, records):
        record = some_record(rng, records, kind)
        if record is not None and at < len(record):
            record[at] = rng.choice(values)

    return damage


def repeat_record(rng, records):
    if records:
        records.insert(rng.randint(0, len(records)), list(rng.choice(records)))


def drop_field(rng, records):
    record = some_record(rng, records)
    if record is not None and len(record) > 1:
        record.pop()


def add_field(rng, records):
    if records:
        rng.choice(records).append(rng.choice(["", "1"]))


def empty_line(rng, records):
    records.insert(rng.randint(0, len(records)), [""])


def shuffle(rng, records):
    rng.shuffle(records)


def no_modes(rng, records):
    records[:] = [record for record in records if record[0] == "frame"]


def many_frames(rng, records):
    records.extend(["frame", length, "", ""] for length in rng.sample(range(1, 40), rng.choice([8, 9])))


def switch_to_itself(rng, records):
    record = some_record(rng, records, "switch")
    if record is not None and len(record) > 2:
        record[2] = record[1]


def no_number(rng, records):
    record = some_record(rng, records)
    if record is not None and len(record) > 1:
        record[rng.randint(0, len(record) - 1)] = rng.choice(NO_NUMBERS)


EITHER_FILE = [repeat_record, drop_field, add_field, empty_line, no_number, no_number]

PROCESSOR_DAMAGE = EITHER_FILE + [
    shuffle,
    no_modes,
    many_frames,
    switch_to_itself,
    set_field(None, 0, ["Mode", "modes", "", "frame ", "~", '"mode""', "switch", "frame", "mode"]),
    set_field("frame", 2, ["0", "1", " "]),
    set_field("frame", 3, ["0", "1", " "]),
    set_field("frame", 1, [0, 1, 20000, 20001, "x", ""]),
    set_field("mode", 1, [0, 1, 16, 17]),
    set_field("mode", 2, [10000, 10001]),
    set_field("mode", 3, [100000, 100001]),
    set_field("switch", 1, [0, 1, 2, 17]),
    set_field("switch", 2, [0, 1, 2, 17]),
    set_field("switch", 3, [20000, 20001, 4294967295]),
]

TASKS_DAMAGE = EITHER_FILE + [set_field(None, at, NO_NUMBERS + ["4294967295", "0"]) for at in range(5)]


# Damage to the bytes of a file.


def edit_bytes(rng, data):
    """A few bytes replaced, left out or put in, often such as mean something in a file."""
    data = bytearray(data)
    for _ in range(rng.randint(1, 3)):
        byte = rng.choice([*b'"",\r\n0x ', 0, 9, 0x7E, 0x7F, 0x80, 0xFF])
        at = rng.randint(0, len(data))
        kind = rng.randint(0, 2)
        if kind == 0:
            data[at : at + 1] = [byte]
        elif kind == 1:
            data[at:at] = [byte]
        else:
            del data[at : at + 1]
    return bytes(data)


def quote_fields(rng, data):
    """A field in quotes, with things in them that only quotes allow, or with quotes that are not closed."""
    inside = rng.choice([b"1", b"a,b", b"\r\n", b"\r", b"\n", b'""', b"", b"\t", b"~", b"\x7f", b"\x80"])
    whole = b'"' + inside + b'"'
    quoted = rng.choice([whole, whole, whole, b'"' + inside, whole + b"x", b"x" + whole])
    marks = [0] + [at + 1 for at in range(len(data)) if data[at : at + 1] in (b",", b"\n")]
    start = rng.choice(marks)
    end = start
    while end < len(data) and data[end : end + 1] not in (b",", b"\r"):
        end += 1
    return data[:start] + quoted + data[end:]


def truncate(rng, data):
    return data[: rng.randint(0, len(data))]


def line_ends(rng, data):
    return rng.choice([data + b"\r\n", data + b"\r", data + b"\n", data.replace(b"\r\n", b"\n"), data.rstrip(b"\r\n"), data + b","])


def change_header(rng, data):
    header, _, rest = data.partition(b"\r\n")
    header = rng.choice([header.upper(), header + b",", header + b" ", header[:-1], b"", b'"' + header[:4] + b'"' + header[4:], b"\xef\xbb\xbf" + header])
    return header + b"\r\n" + rest


def pad(rng, data):
    """About as long as a file may be, by a long field or by many records."""
    size = LONGEST_FILE + rng.choice([-1, 0, 1, 5000])
    if rng.random() < 0.5:
        return data + b"x" * max(0, size - len(data))
    line = rng.choice([b"9,1,0,100,100\r\n", b"\r\n"])
    return (data + line * (size // len(line)))[:size]


def lose(rng, data):
    return rng.choice([b"", None])


BYTE_DAMAGE = [edit_bytes, edit_bytes, quote_fields, quote_fields, quote_fields, truncate, line_ends, change_header, pad, lose]


def damaged_pair(rng):
    """A pair with one to three damages; None for a file that is not there."""
    processor = good_processor(rng)
    tasks = good_tasks(rng, processor)
    for _ in range(rng.choice([0, 1, 1, 1, 2, 3])):
        if rng.random() < 0.6:
            rng.choice(PROCESSOR_DAMAGE)(rng, processor)
        else:
            rng.choice(TASKS_DAMAGE)(rng, tasks)
    pair = [file_bytes(rng, PROCESSOR_HEADER, processor), file_bytes(rng, TASKS_HEADER, tasks)]
    for _ in range(rng.choice([0, 0, 1, 2])):
        at = rng.randint(0, 1)
        if pair[at] is not None:
            pair[at] = rng.choice(BYTE_DAMAGE)(rng, pair[at])
    if rng.random() < 0.02:
        pair.reverse()
    return tuple(pair)


def any_pair(rng):
    return good_pair(rng) if rng.random() < 0.6 else damaged_pair(rng)
