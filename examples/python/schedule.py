#!/usr/bin/env python3
"""
Takes a schedule apart into lines that a person can read and change, and puts such lines together again as bytes. See --help.

How a record stands in bytes is not known here. The library knows it: schedule_read and schedule_write are proved to undo each other, so a
schedule that is taken apart and put together again is the same bytes.
"""
import argparse
import signal
import sys

try:
    import brancove
except ImportError as error:
    print("schedule: %s" % error, file=sys.stderr)
    sys.exit(2)

# The calls by name: the kind, and what its numbers are, in the header's order.
CALLS = {
    "open": (brancove.KIND_OPEN, ["record", "mode"]),
    "step": (brancove.KIND_STEP, ["slot"]),
    "release": (brancove.KIND_RELEASE, ["slot"]),
    "show": (brancove.KIND_SHOW, ["record"]),
    "open-as": (brancove.KIND_OPEN_AS, ["record", "mode", "node"]),
    "fence": (brancove.KIND_FENCE, ["node"]),
    "care": (brancove.KIND_CARE, ["slot"]),
}
NAMES = {kind: name for name, (kind, _) in CALLS.items()}

# The modes by name. A schedule can hold others too, and these are numbers.
MODES = {"reader": brancove.READER, "writer": brancove.WRITER}
MODE_NAMES = {mode: name for name, mode in MODES.items()}

# What stands in a buffer before it is written, and behind it.
UNWRITTEN = b"\xa5"
BEHIND = 8 * UNWRITTEN

NOTATION = """\
A line is a call:

%s

MODE is reader or writer, or a number; all others are numbers, in decimal digits. Behind # stands a comment, and an empty line is passed
over. 'open' is by node 0, and so is 'open-as' with node 0: they are two calls, and each stays what it is.

status: 0  all is well
        1  apart: the schedule has an unknown kind or ends inside a record; the lines before it are printed
           together: lines are wrong; each is named, and nothing is written
           same: a schedule is not written as it was read
        2  wrong usage, no library, or a file that cannot be read or written
""" % "\n".join("  " + " ".join([name] + [field.upper() for field in fields]) for name, (_, fields) in CALLS.items())


class Wrong(Exception):
    """What is wrong with a line, or with what the library answers."""


def many(number, what):
    return "%d %s%s" % (number, what, "" if number == 1 else "s")


def read_file(path):
    with open(0 if path == "-" else path, "rb", closefd=path != "-") as file:
        return file.read()


def write_file(path, data):
    with open(1 if path == "-" else path, "wb", closefd=path != "-") as file:
        file.write(data)


def complain(words):
    print("schedule: %s" % words, file=sys.stderr)


def records_of(schedule):
    """
    The records of a schedule: of each its place, the place behind it, its kind and three numbers. Then the place where they end, and in
    words why they end there if that is not the schedule's end.
    """
    records, place = [], 0
    while True:
        stands = brancove.schedule_read(schedule, place)
        if stands.kind == brancove.KIND_NONE:
            break
        if not place < stands.next <= len(schedule):  # so that it ends even with a library that is wrong
            raise Wrong("the library goes from byte %d to byte %d of %d" % (place, stands.next, len(schedule)))
        records.append((place, stands.next, stands.kind, stands.first, stands.second, stands.third))
        place = stands.next
    if place == len(schedule) and stands.number == brancove.ACCEPTED:
        return records, place, None
    if place < len(schedule) and stands.number == brancove.UNKNOWN_KIND:
        return records, place, "unknown kind %d at byte %d" % (schedule[place], place)
    if place < len(schedule) and stands.number == brancove.CUT_SHORT:
        return records, place, "the record at byte %d is cut short" % place
    raise Wrong("the library ends with %d at byte %d of %d" % (stands.number, place, len(schedule)))


def line_of(place, _, kind, *numbers):
    """The line of a record. Numbers that its kind does not have are left out."""
    if kind not in NAMES:
        raise Wrong("kind %d at byte %d has no name here" % (kind, place))
    words = [NAMES[kind]]
    for field, number in zip(CALLS[words[0]][1], numbers):
        words.append(MODE_NAMES.get(number, str(number)) if field == "mode" else str(number))
    return " ".join(words) + "\n"


def apart(asked):
    """Prints the lines up to where the schedule can be read, then why not further."""
    schedule = read_file(asked.file)
    records, _, why = records_of(schedule)
    write_file(asked.output, "".join(line_of(*record) for record in records).encode())
    if why:
        complain(why)
    return 1 if why else 0


def number_of(field, word):
    """The number that a word stands for. Whether it fits its field is not asked here."""
    if field == "mode" and word in MODES:
        return MODES[word]
    try:
        if word.isascii() and word.isdigit():
            return int(word)
    except ValueError:
        pass  # thousands of digits
    also = "neither reader nor writer, and " if field == "mode" else ""
    raise Wrong("the %s %s is %sno number in decimal digits" % (field, ascii(word), also))


def call_of(name, *words):
    """The kind and the numbers that the words of a line stand for."""
    if name not in CALLS:
        raise Wrong("there is no call %s; there are %s" % (ascii(name), ", ".join(CALLS)))
    kind, fields = CALLS[name]
    if len(words) != len(fields):
        raise Wrong("%s takes %s (%s), not %d" % (name, many(len(fields), "number"), ", ".join(fields), len(words)))
    return kind, [number_of(field, word) for field, word in zip(fields, words)]


def write(buffer, place, kind, numbers):
    """What the library answers. A number that cannot even be handed to it is too large as well."""
    try:
        return brancove.schedule_write(buffer, place, kind, *numbers, *[0] * (3 - len(numbers)))
    except ValueError:
        return brancove.Placed(brancove.TOO_LARGE, place)


def too_large(kind, numbers):
    """Says which number is too large, and which is the largest. Both are the library's word, which it gives before it looks for room."""
    def refused(before, number):
        return write(bytearray(), 0, kind, [0] * before + [number]).number == brancove.TOO_LARGE
    for before, (field, number) in enumerate(zip(CALLS[NAMES[kind]][1], numbers)):
        if refused(before, number):
            taken, over = 0, number
            while over - taken > 1:
                middle = (taken + over) // 2
                taken, over = (taken, middle) if refused(before, middle) else (middle, over)
            return "the %s %d is too large: the largest is %d" % (field, number, taken)
    return "the library refuses it with %d" % brancove.TOO_LARGE


def append(buffer, place, kind, numbers):
    """Writes a record at the free place of a buffer that grows, and gives the next free place."""
    placed = write(buffer, place, kind, numbers)
    if placed.number == brancove.NO_ROOM:
        buffer.extend(bytes(len(buffer)))
        placed = write(buffer, place, kind, numbers)
    if placed.number == brancove.TOO_LARGE:
        raise Wrong(too_large(kind, numbers))
    if placed.number != brancove.ACCEPTED:
        raise Wrong("the library refuses it with %d" % placed.number)
    return placed.place


def together(asked):
    """Writes the schedule, or says of each wrong line what is wrong."""
    buffer, place, status = bytearray(4096), 0, 0
    for count, line in enumerate(read_file(asked.file).decode("utf-8-sig", "replace").split("\n"), 1):
        words = line.partition("#")[0].split()
        try:
            place = append(buffer, place, *call_of(*words)) if words else place
        except Wrong as wrong:
            complain("line %d: %s" % (count, wrong))
            status = 1
    if status == 0:
        write_file(asked.output, buffer[:place])
    return status


def compare(schedule):
    """
    Takes a schedule apart, puts it together and compares; gives its records, the place where they end and why. They are written into a
    buffer that has their length and no more: first one behind the other, then in a new one the last first, so that what a record writes
    past its end is not written over by the next.
    """
    records, end, why = records_of(schedule)
    right = schedule[:end] + BEHIND
    for order in records, records[::-1]:
        room = bytearray(end * UNWRITTEN + BEHIND)
        buffer = memoryview(room)[:end]
        for place, behind, *record in order:
            placed = brancove.schedule_write(buffer, place, *record)
            if placed.number != brancove.ACCEPTED:
                raise Wrong("the record at byte %d is refused with %d" % (place, placed.number))
            if placed.place != behind:
                raise Wrong("the record at byte %d is read up to byte %d and written up to byte %d" % (place, behind, placed.place))
        if room != right:
            at = next(at for at in range(len(right)) if room[at] != right[at])
            raise Wrong("byte %d is %d, and was %d" % (at, room[at], right[at]) if at < end else "it is written past the buffer's end")
    return records, end, why


def same(asked):
    """Compares each schedule, and counts."""
    whole = records = size = left = differ = 0
    for path in asked.files:
        schedule = read_file(path)
        try:
            found, end, why = compare(schedule)
        except Wrong as wrong:
            complain("%s differs: %s" % (path, wrong))
            differ += 1
            continue
        records, size, left, whole = records + len(found), size + end, left + len(schedule) - end, whole + (why is None)
        if why:
            print("%s: %s; from there on not compared: %s" % (path, why, many(len(schedule) - end, "byte")))
    print("%s, %d of them to the end: %s, %s the same, %s not compared, %s"
          % (many(len(asked.files), "schedule"), whole, many(records, "record"), many(size, "byte"), many(left, "byte"),
             "none differs" if differ == 0 else "1 differs" if differ == 1 else "%d differ" % differ))
    return 1 if differ else 0


def arguments(words):
    lines = argparse.RawDescriptionHelpFormatter
    about = "Takes schedules apart into lines, and puts lines together."
    parser = argparse.ArgumentParser(description=about, epilog=NOTATION, formatter_class=lines)
    commands = parser.add_subparsers(metavar="COMMAND", required=True)
    for name, command, does, given, made in (
            ("apart", apart, "print the records of a schedule as lines", "the schedule", "the lines"),
            ("together", together, "write the schedule that lines stand for", "the lines", "the schedule")):
        one = commands.add_parser(name, help=does, epilog=NOTATION, formatter_class=lines)
        one.add_argument("file", nargs="?", default="-", metavar="FILE", help="%s; standard input if it is - or not given" % given)
        one.add_argument("-o", default="-", metavar="FILE", dest="output", help="%s; standard output if it is - or not given" % made)
        one.set_defaults(command=command)
    one = commands.add_parser("same", help="take schedules apart, put them together again, and compare")
    one.add_argument("files", nargs="+", metavar="FILE", help="a schedule; - is standard input")
    one.set_defaults(command=same)
    return parser.parse_args(words)


def main(words=None):
    """Does what the words ask, or those of the command line, and gives the status."""
    asked = arguments(words)
    try:
        return asked.command(asked)
    except Wrong as wrong:
        complain(wrong)
        return 1
    except OSError as error:
        complain("%s: %s" % (error.filename or "standard input or output", error.strerror))
        return 2


if __name__ == "__main__":
    signal.signal(signal.SIGPIPE, signal.SIG_DFL)  # who reads the lines may have enough of them
    sys.exit(main())
