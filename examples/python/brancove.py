"""
Brancove for Python, the agent and the schedules: include/brancove.h by ctypes, name by name. What each function does is said there and in
docs/RULES.md.

No rule is here: the functions are those of libbrancove.so, which examples/python/build makes of the proved archives. Those of the agent
send nothing and keep nothing: the caller owns the request, sends the verb to the record's lock word, and hands the word that was there to
the matching `_takes`. A number that does not fit its type is a ValueError, where ctypes alone would cut it.

Where the header has a pointer and a length there is one argument here:

    schedule_read(schedule, place)                             schedule: bytes, a bytearray or whatever else holds bytes
    schedule_write(buffer, place, kind, first, second, third)  buffer: a bytearray, or a memoryview of a part of one
"""
import ctypes
import os
from ctypes import c_size_t, c_uint8, c_uint16, c_uint64

# The phase of a request.
PHASE_FREE, PHASE_ASKING, PHASE_WAITING, PHASE_HELD, PHASE_OWING, PHASE_CLEARING = range(6)

# The mode of a request.
READER, WRITER = 0, 1

# The kind of a verb.
VERB_NOTHING, VERB_ADD, VERB_READ, VERB_SWAP = range(4)

# The number of an answer.
ACCEPTED, NO_SUCH_MODE, WRONG_PHASE = 0, 3, 5
CUT_SHORT, UNKNOWN_KIND, NO_ROOM, TOO_LARGE = 7, 8, 12, 18

# The outcome of an accepted answer; TOLD_NOTHING comes with a refusal.
TOLD_NOTHING = 0
TOLD_GRANTED, TOLD_WAITING, TOLD_FULL, TOLD_WITHDRAWN, TOLD_RELEASED, TOLD_CLEARING_DUE, TOLD_CLEARED, TOLD_NOT_YET_CLEAR = range(2, 10)
TOLD_PASSED, TOLD_FREED_UNASKED = 11, 12

# The kind of a record of a schedule; KIND_NONE says that none stands there.
KIND_NONE, KIND_OPEN, KIND_STEP, KIND_RELEASE, KIND_SHOW, KIND_OPEN_AS, KIND_FENCE, KIND_CARE = range(8)


class Request(ctypes.Structure):
    """A request: 16 bytes, all zero when free. It may lie in any memory: Request.from_buffer puts it there."""
    _fields_ = [("record", c_uint16), ("mode", c_uint8), ("phase", c_uint8), ("x", c_uint16), ("s", c_uint16), ("clearing", c_uint64)]


class Verb(ctypes.Structure):
    """A verb to send to the lock word of the request's record."""
    _fields_ = [("kind", c_uint8), ("first", c_uint64), ("second", c_uint64)]


class Told(ctypes.Structure):
    """What a request is told."""
    _fields_ = [("number", c_uint8), ("outcome", c_uint8), ("ahead", c_uint64)]


class Counters(ctypes.Structure):
    """The four counters of a lock word: releases of writers and readers, then their next tickets."""
    _fields_ = [("nx", c_uint16), ("ns", c_uint16), ("mx", c_uint16), ("ms", c_uint16)]

    def __str__(self):
        return "{%d, %d, %d, %d}" % (self.nx, self.ns, self.mx, self.ms)


class Standing(ctypes.Structure):
    """What stands at a place of a schedule: a record with its numbers and the place behind it, or none."""
    _fields_ = [("number", c_uint8), ("kind", c_uint8), ("first", c_uint64), ("second", c_uint64), ("third", c_uint64), ("next", c_size_t)]


class Placed(ctypes.Structure):
    """What became of a record that was to be written, and the next free place."""
    _fields_ = [("number", c_uint8), ("place", c_size_t)]


def _layout(struct, size, *offsets):
    """The layout that the archives were compiled for."""
    if ctypes.sizeof(struct) != size or tuple(getattr(struct, name).offset for name, _ in struct._fields_) != offsets:
        raise ImportError("brancove: %s has another layout here than in include/brancove.h" % struct.__name__)


_layout(Request, 16, 0, 2, 3, 4, 6, 8)
_layout(Verb, 24, 0, 8, 16)
_layout(Told, 16, 0, 1, 8)
_layout(Counters, 8, 0, 2, 4, 6)
_layout(Standing, 40, 0, 1, 8, 16, 24, 32)
_layout(Placed, 16, 0, 8)


# The arguments. Each gives what is handed to C in its place: one thing, or pointer and length.

def _kept(request):
    """A request that the caller keeps. ctypes would also take None, which is no request."""
    if not isinstance(request, Request):
        raise TypeError("a brancove.Request is wanted")
    return [ctypes.byref(request)]


def _number(kind):
    """A number of that kind, and nothing above it."""
    bits = 8 * ctypes.sizeof(kind)

    def number_of_kind(number):
        if number >> bits != 0:
            raise ValueError("%d does not fit %d bytes" % (number, bits // 8))
        return [kind(number)]
    return number_of_kind


_Start = c_uint8 * 0  # where a buffer begins, however short it is


def _lent(buffer):
    """Bytes that may be written, a TypeError if they may not."""
    return [_Start.from_buffer(buffer), c_size_t(memoryview(buffer).nbytes)]


def _shown(schedule):
    """Bytes to be read. Only what is neither bytes nor writable is copied."""
    if not memoryview(schedule).readonly:
        return _lent(schedule)
    schedule = bytes(schedule)
    return [schedule, c_size_t(len(schedule))]


def _load():
    root = os.path.dirname(os.path.dirname(os.path.dirname(os.path.abspath(__file__))))
    path = os.environ.get("BRANCOVE_LIB") or os.path.join(root, "target", "python", "libbrancove.so")
    if not os.path.exists(path):
        why = "which BRANCOVE_LIB names" if os.environ.get("BRANCOVE_LIB") else "examples/python/build makes it"
        raise ImportError("brancove: there is no %s: %s" % (path, why))
    try:
        return ctypes.CDLL(os.path.abspath(path))
    except OSError as error:
        raise ImportError("brancove: the library does not load: %s" % error) from None


def _function(name, result, *arguments):
    try:
        function = getattr(_library, "brancove_" + name)
    except AttributeError as error:
        raise ImportError("brancove: the library is not what examples/python/build makes: %s" % error) from None
    function.restype = result

    # Not by argtypes: there an error in an argument is a ctypes.ArgumentError, whatever it was.
    def call(*given):
        if len(given) != len(arguments):
            raise TypeError("%s takes %d arguments, not %d" % (name, len(arguments), len(given)))
        return function(*[part for argument, value in zip(arguments, given) for part in argument(value)])
    call.__name__ = name
    return call


_library = _load()
ask = _function("ask", c_uint8, _kept, _number(c_uint16), _number(c_uint8))
step_sends = _function("step_sends", Verb, _kept)
release_sends = _function("release_sends", Verb, _kept)
step_takes = _function("step_takes", Told, _kept, _number(c_uint64))
release_takes = _function("release_takes", Told, _kept, _number(c_uint64))
care_sends = _function("care_sends", Verb, _kept)
care_takes = _function("care_takes", Told, _kept, _number(c_uint64))
split = _function("split", Counters, _number(c_uint64))
schedule_read = _function("schedule_read", Standing, _shown, _number(c_size_t))
schedule_write = _function("schedule_write", Placed, _lent, _number(c_size_t), *[_number(c_uint64)] * 4)
