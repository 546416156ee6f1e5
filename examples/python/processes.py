#!/usr/bin/env python3
"""
Processes that take records as readers and writers in shared memory, and hold every hold against the promises: a writer is alone, nobody is
told that its ticket has passed, every request ends. It is examples/c/agent.c and threads.c with processes. A violation is a line on
standard error and status 1; so is a deadline that passes, and then it says what each process waited for.

Two runs: on fresh words, and on words that are near the ceiling, which have to be cleared before it goes on.
"""
import argparse
import ctypes
import mmap
import multiprocessing
import os
import random
import signal
import sys
import time
from ctypes import c_int, c_uint64

import brancove
from brancove import READER, WRITER

MOST_PROCESSES, MOST_RECORDS = 200, 64
CEILING, NEAR = 32768, 32700
ONE_WRITER = 1 << 32
PHASES = ("free", "asking", "waiting", "held", "owing", "clearing")


class Guarded(ctypes.Structure):
    """What a record's lock guards. `inside` counts who is inside, a writer as ONE_WRITER; the data are plain, and several on purpose."""
    _fields_ = [("inside", c_uint64), ("data", c_uint64 * 4)]


class Worker(ctypes.Structure):
    """What a process keeps where the first one can see it; only it writes here. The request is here to show who waits for what."""
    _fields_ = [
        ("request", brancove.Request),
        ("ended", c_uint64),
        ("verbs", c_uint64),
        ("longest_wait", c_uint64),              # the most reads that one ticket needed
        ("turned_away", c_uint64),
        ("cleared", c_uint64),
        ("had", c_uint64 * 2 * MOST_RECORDS),    # tickets, by record and mode
        ("gone", c_uint64 * 2 * MOST_RECORDS),   # tickets that a clearing has taken off the word
    ]


class Shared(ctypes.Structure):
    _fields_ = [
        ("go", c_uint64),
        ("words", c_uint64 * MOST_RECORDS),
        ("guarded", Guarded * MOST_RECORDS),
        ("workers", Worker * MOST_PROCESSES),
    ]


class Atomics:
    """The three verbs as the processor's atomics. Python has none, but gcc's libatomic has them as functions."""
    name = "libatomic"
    order = 5  # sequentially consistent

    def __init__(self):
        library, place = ctypes.CDLL("libatomic.so.1"), ctypes.POINTER(c_uint64)
        self.fetch_add = library["__atomic_fetch_add_8"]
        self.fetch_add.restype, self.fetch_add.argtypes = c_uint64, (place, c_uint64, c_int)
        self.load = library["__atomic_load_8"]
        self.load.restype, self.load.argtypes = c_uint64, (place, c_int)
        self.exchange = library["__atomic_compare_exchange_8"]
        self.exchange.restype, self.exchange.argtypes = ctypes.c_bool, (place, place, c_uint64, c_int, c_int)

    def add(self, at, number):
        return self.fetch_add(at, number, self.order)

    def read(self, at):
        return self.load(at, self.order)

    def swap(self, at, old, new):
        found = c_uint64(old)
        self.exchange(at, found, new, self.order, self.order)  # writes what it found, if that was another word
        return found.value


class OneAtATime:
    """
    The same where there is no libatomic. This lock stands for the atomicity that memory or a network card gives to a verb: it is held for
    the verb alone, and never while a request waits or holds. Who may go in is still decided by the library.
    """
    name = "one verb at a time under a lock"

    def __init__(self):
        self.lock = multiprocessing.get_context("fork").Lock()

    def add(self, at, number):
        with self.lock:
            before = at.value
            at.value = before + number  # modulo 2^64
            return before

    def read(self, at):
        with self.lock:
            return at.value

    def swap(self, at, old, new):
        with self.lock:
            before = at.value
            if before == old:
                at.value = new
            return before


class Violation(Exception):
    pass


class Agent:
    """Takes a record's lock and gives it back. All lock rules are in the library: this sends verbs and looks at what it is told."""

    def __init__(self, memory, words, kept):
        self.memory, self.words, self.kept, self.request = memory, words, kept, kept.request

    def send(self, verb):
        word = self.words[self.request.record]
        self.kept.verbs += 1
        if verb.kind == brancove.VERB_ADD:
            return self.memory.add(word, verb.first)
        if verb.kind == brancove.VERB_SWAP:
            return self.memory.swap(word, verb.first, verb.second)
        return self.memory.read(word)

    def step(self):
        return brancove.step_takes(self.request, self.send(brancove.step_sends(self.request)))

    def ask_once(self, record, mode):
        """Asks once and waits for the turn. True if the lock is held, False if the record was full."""
        if brancove.ask(self.request, record, mode) != brancove.ACCEPTED:
            raise Violation("an ask was refused")
        reads = 0
        while True:
            outcome = self.step().outcome
            if outcome == brancove.TOLD_GRANTED:
                self.kept.longest_wait = max(self.kept.longest_wait, reads)
                return True
            if outcome == brancove.TOLD_WAITING:
                reads += 1
                os.sched_yield()  # here a read is cheap; over a network the number ahead says how long the next one can wait
            elif outcome == brancove.TOLD_WITHDRAWN:
                self.kept.turned_away += 1
                return False
            elif outcome == brancove.TOLD_PASSED:
                raise Violation("a request was told that its ticket has passed")
            elif outcome != brancove.TOLD_FULL:  # the next step takes back what the ask has added
                raise Violation("a step was told what does not belong to its phase")

    def take(self, record, mode):
        times = 1
        while not self.ask_once(record, mode):
            time.sleep(5e-6 * 2 ** min(times, 8))
            times += 1
        self.kept.had[record][mode] += 1

    def give_back(self):
        record, clearing = self.request.record, brancove.split(self.request.clearing)
        told = brancove.release_takes(self.request, self.send(brancove.release_sends(self.request)))
        if told.outcome == brancove.TOLD_RELEASED:
            return
        if told.outcome != brancove.TOLD_CLEARING_DUE:
            raise Violation("a release was told what does not belong to it")
        # This request drew the last ticket of its kind: nobody gets another before the word is cleared.
        told = self.step()
        while told.outcome == brancove.TOLD_NOT_YET_CLEAR:
            os.sched_yield()
            told = self.step()
        if told.outcome != brancove.TOLD_CLEARED:
            raise Violation("a clearing request was told what does not belong to its phase")
        self.kept.cleared += 1
        self.kept.gone[record][WRITER] += clearing.mx
        self.kept.gone[record][READER] += clearing.ms


class Run:
    """Processes on one piece of shared memory, from words that are given."""

    def __init__(self, load, memory, start, until):
        self.load, self.memory, self.start, self.until = load, memory, start, until
        self.shared = Shared.from_buffer(mmap.mmap(-1, ctypes.sizeof(Shared)))
        self.words = [c_uint64.from_buffer(self.shared.words, 8 * record) for record in range(load.records)]
        self.insides = [c_uint64.from_buffer(self.shared.guarded[record]) for record in range(load.records)]
        self.workers = self.shared.workers[:load.processes]
        for word, value in zip(self.words, start):
            word.value = value

    def pause(self, dice, request):
        """Now and then whoever is inside lets others run. Who has a last ticket stays until somebody is turned away, a second at most."""
        if dice.randrange(64) == 0:
            os.sched_yield()
        if request.clearing != 0:
            before, until = self.turned_away(), time.monotonic() + 1
            while self.load.processes > 1 and self.turned_away() == before and time.monotonic() < until:
                time.sleep(0.001)

    def turned_away(self):
        return sum(worker.turned_away for worker in self.workers)

    def write(self, dice, request):
        data, inside = self.shared.guarded[request.record].data, self.insides[request.record]
        if self.memory.add(inside, ONE_WRITER) != 0:
            raise Violation("a writer shares a record")
        before = data[:]
        for place in range(len(data)):
            data[place] = before[0] + 1
            if place == 1:
                self.pause(dice, request)
        if before != [before[0]] * len(data) or data[:] != [before[0] + 1] * len(data):
            raise Violation("a writer saw another's work")
        self.memory.add(inside, 2 ** 64 - ONE_WRITER)

    def read(self, dice, request):
        data, inside = self.shared.guarded[request.record].data, self.insides[request.record]
        if self.memory.add(inside, 1) >= ONE_WRITER:
            raise Violation("a reader shares a record with a writer")
        before = data[:]
        self.pause(dice, request)
        if before != [before[0]] * len(data) or data[:] != before:
            raise Violation("a reader saw a writer's work half done")
        self.memory.add(inside, 2 ** 64 - 1)

    def work(self, number):
        """One process."""
        signal.signal(signal.SIGINT, signal.SIG_DFL)
        signal.alarm(max(1, int(self.until - time.monotonic())) + 5)  # it never outlives the deadline, even if the first process is gone
        kept, dice = self.workers[number], random.Random(number)
        agent = Agent(self.memory, self.words, kept)
        while self.shared.go == 0:
            time.sleep(0.0005)
        for _ in range(self.load.requests):
            record, mode = dice.randrange(self.load.records), WRITER if dice.randrange(100) < self.load.writers else READER
            try:
                agent.take(record, mode)
                if mode == WRITER:
                    self.write(dice, kept.request)
                else:
                    self.read(dice, kept.request)
                agent.give_back()
                if bytes(kept.request) != bytes(16):
                    raise Violation("a request did not end")
            except Violation as violation:
                print("processes: VIOLATION: %s (process %d, record %d)" % (violation, number, record), file=sys.stderr)
                sys.exit(1)
            kept.ended += 1

    def where(self, number):
        """What a process was at when it was last seen."""
        kept, request = self.workers[number], self.workers[number].request
        said = "process %d has ended %d requests of %d; " % (number, kept.ended, self.load.requests)
        said += "its request is %s" % PHASES[request.phase]
        if request.phase != brancove.PHASE_FREE:
            word = brancove.split(self.words[request.record].value)
            mode = "writer" if request.mode else "reader"
            said += ", a %s's for record %d with ticket (%d, %d); the word is %s" % (mode, request.record, request.x, request.s, word)
        return said

    def watch(self):
        """Starts the processes and waits until all have ended, one has failed, or the deadline has passed. Gives the seconds."""
        context = multiprocessing.get_context("fork")
        processes = [context.Process(target=self.work, args=(number,), daemon=True) for number in range(self.load.processes)]
        for process in processes:
            process.start()
        started, self.shared.go = time.monotonic(), 1
        try:
            while True:
                codes = [process.exitcode for process in processes]
                for number, code in enumerate(codes):
                    if code is not None and code < 0:
                        sys.exit("processes: signal %d ended a process: %s" % (-code, self.where(number)))
                    if code:
                        sys.exit(1)  # it has said why
                if None not in codes:
                    return time.monotonic() - started
                if time.monotonic() > self.until:
                    waiting = [self.where(number) for number, code in enumerate(codes) if code is None]
                    passed = "processes: the deadline of %d seconds has passed (--deadline gives another):" % self.load.deadline
                    sys.exit("\n  ".join([passed] + waiting))
                time.sleep(0.005)
        finally:
            for process in processes:
                process.kill()
                process.join()

    def look_at_the_end(self):
        """Each ticket has been released and is accounted for, each withdrawal made, and no writer's work was lost."""
        for record in range(self.load.records):
            word, guarded = brancove.split(self.words[record].value), self.shared.guarded[record]
            wrote = sum(worker.had[record][WRITER] for worker in self.workers)
            if word.nx != word.mx or word.ns != word.ms:
                raise Violation("tickets and releases differ at the end (record %d, %s)" % (record, word))
            if word.mx >= CEILING or word.ms >= CEILING:
                raise Violation("a word was not cleared (record %d, %s)" % (record, word))
            if guarded.inside != 0 or guarded.data[:] != [wrote] * len(guarded.data):
                raise Violation("a writer's work was lost (record %d)" % record)
            first = brancove.split(self.start[record])
            for mode, drawn in ((WRITER, word.mx - first.mx), (READER, word.ms - first.ms)):
                gone, had = (sum(getattr(worker, name)[record][mode] for worker in self.workers) for name in ("gone", "had"))
                if drawn + gone != had:
                    raise Violation("%d tickets were had, and the words count %d (record %d)" % (had, drawn + gone, record))

    def play(self, name):
        """Plays it all and gives the number of requests."""
        seconds = self.watch()
        self.look_at_the_end()
        total = {field: sum(getattr(worker, field) for worker in self.workers) for field in ("ended", "verbs", "turned_away", "cleared")}
        print("%s: %d requests ended, %d turned away, %d times a word cleared"
              % (name, total["ended"], total["turned_away"], total["cleared"]))
        print("%d requests and %d verbs per second, longest wait: %d reads"
              % (total["ended"] / seconds, total["verbs"] / seconds, max(worker.longest_wait for worker in self.workers)))
        return total["ended"]


def from_to(least, most):
    def given(text):
        if not text.isdigit() or not least <= int(text) <= most:
            raise argparse.ArgumentTypeError("%s is not a number from %d to %d" % (text, least, most))
        return int(text)
    return given


def arguments():
    parser = argparse.ArgumentParser(description="Processes on lock words in shared memory, with checks.")
    parser.add_argument("processes", nargs="?", type=from_to(1, MOST_PROCESSES), default=4, help="1 to 200, 4 if not given")
    parser.add_argument("records", nargs="?", type=from_to(1, MOST_RECORDS), default=2, help="1 to 64, 2 if not given")
    parser.add_argument("requests", nargs="?", type=from_to(1, 10 ** 9), default=20000, help="of a process in a run, 20000 if not given")
    parser.add_argument("writers", nargs="?", type=from_to(0, 100), default=25, help="of a hundred requests, 25 if not given")
    parser.add_argument("--deadline", type=from_to(1, 10 ** 6), default=60, help="in seconds, for all; 60 if not given")
    parser.add_argument("--lock", action="store_true", help="do not use libatomic")
    return parser.parse_args()


def main():
    load = arguments()
    try:
        memory = OneAtATime() if load.lock else Atomics()
    except (OSError, AttributeError):  # there is none, or it lacks a function
        memory = OneAtATime()
    until = time.monotonic() + load.deadline
    print("%d processes, %d records, %d of 100 write; verbs by %s" % (load.processes, load.records, load.writers, memory.name))
    # A word at rest that NEAR writers have left, or NEAR readers: {NEAR, 0, NEAR, 0} and {0, NEAR, 0, NEAR}.
    near = [NEAR << 48 | NEAR << 16, NEAR << 32 | NEAR]
    try:
        ended = Run(load, memory, [0] * load.records, until).play("fresh words")
        ended += Run(load, memory, [near[record % 2] for record in range(load.records)], until).play("near the ceiling")
    except Violation as violation:
        sys.exit("processes: VIOLATION: %s" % violation)
    print("%d requests of %d processes ended, no promise broken" % (ended, load.processes))


if __name__ == "__main__":
    main()
