#!/usr/bin/env python3
"""
Requests through their life on one word in memory, and what they are told, line by line. first.expected is what this prints.

First a writer and two readers on a fresh word. Then the ceiling: 32,768 tickets of a kind are given, and the word has to be cleared. Then
the node of all three is lost, and a caretaker ends its requests.
"""
import ctypes
import sys

import brancove

word = ctypes.c_uint64(0)  # a record's lock word
writer, slow, quick = brancove.Request(), brancove.Request(), brancove.Request()  # three requests for it, all free

TOLD = {
    brancove.TOLD_GRANTED: "granted",
    brancove.TOLD_WAITING: "waiting",
    brancove.TOLD_FULL: "full, turned away",
    brancove.TOLD_WITHDRAWN: "withdrawn",
    brancove.TOLD_RELEASED: "released",
    brancove.TOLD_CLEARING_DUE: "released, and a clearing is due",
    brancove.TOLD_CLEARED: "cleared",
    brancove.TOLD_NOT_YET_CLEAR: "not yet clear",
    brancove.TOLD_PASSED: "passed",
    brancove.TOLD_FREED_UNASKED: "freed unasked",
}


def send(verb):
    """What the memory does, or a network card: it changes the word and gives back what was there."""
    before = word.value
    if verb.kind == brancove.VERB_ADD:
        word.value = before + verb.first  # modulo 2^64
    elif verb.kind == brancove.VERB_SWAP and before == verb.first:
        word.value = verb.second
    return before


def say(request, what, told):
    words = TOLD[told.outcome] if told.number == brancove.ACCEPTED else "refused with %d, wrong phase" % told.number
    if told.outcome == brancove.TOLD_WAITING:
        words += ", %d ahead" % told.ahead
    name = "writer" if request is writer else "slow reader" if request is slow else "quick reader"
    print("%s %s: %s; the word is %s" % (name, what, words, brancove.split(word.value)))


def step(request, what):
    say(request, what, brancove.step_takes(request, send(brancove.step_sends(request))))


def release(request):
    say(request, "lets go", brancove.release_takes(request, send(brancove.release_sends(request))))


def care(request):
    say(request, "is cared for", brancove.care_takes(request, send(brancove.care_sends(request))))


def prepare(request, mode):
    if brancove.ask(request, 0, mode) != brancove.ACCEPTED:  # for record 0; nothing is sent yet
        sys.exit("an ask was refused")


def ask(request, mode):
    prepare(request, mode)
    step(request, "asks")


ask(writer, brancove.WRITER)
ask(slow, brancove.READER)     # the writer is inside, so it waits: from now on its steps read
ask(quick, brancove.READER)
step(writer, "steps")          # there is no step for one who holds
release(writer)
step(quick, "looks")
release(quick)                 # before the slow reader, whose ticket is earlier, has looked
step(slow, "looks")            # its turn is not over
ask(writer, brancove.WRITER)
release(slow)
step(writer, "looks")
release(writer)

word.value = 32767 << 48 | 32767 << 16  # as 32,767 writers left it
print("\nthe word is %s" % brancove.split(word.value))
ask(writer, brancove.WRITER)   # it gets the last ticket, and with it a clearing word
print("its clearing word is %s" % brancove.split(writer.clearing))
ask(slow, brancove.READER)
release(writer)
step(writer, "clears")         # the reader's 1 is still there
step(slow, "takes its 1 back")
step(writer, "clears")
ask(slow, brancove.READER)     # and it goes on
release(slow)

print()
ask(writer, brancove.WRITER)
ask(slow, brancove.READER)
prepare(quick, brancove.READER)
print("their node is lost: the writer holds, the slow reader waits, the quick reader has not asked")
lost = [slow, writer, quick]   # the node is fenced, and no verb of it is under way: docs/AGENT.md
while lost:
    for request in lost:
        care(request)          # the slow one waits for the writer, is then granted, then released
    lost = [request for request in lost if request.phase != brancove.PHASE_FREE]
