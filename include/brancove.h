/*
 * The Brancove agent for C and C++: what a request for a record's lock sends next, and what it becomes with the result.
 *
 * The agent's functions are in libagent_c.a, those for schedules, at the end of this file, in libschedule_c.a (x86-64). Each is proved to do
 * what the rules say, for every content of a request and every 64-bit result, or for all bytes, places and numbers. They send nothing, wait for nothing, allocate nothing and keep nothing between calls: the caller owns the request,
 * sends the verb to the record's lock word, and chooses when to try again.
 *
 * What requests do to each other is proved of a board that plays whole calls, one after the other: a call sends its verb and takes the
 * result before the next call begins. There a writer is alone, no ticket passes, and whoever waits is told for how many tickets, with at
 * most 256 requests in use at a time on all words together, at most 4,096 words, every word 0 at first and touched by these verbs alone.
 * An agent that sends now and takes the result later, while others send, is not what that theorem speaks of.
 *
 * The whole life of a request. SEND, PAUSE and FAIL are yours: SEND sends a verb to the record's word, once, and gives the word as it
 * was before; FAIL does not return.
 *
 *     brancove_request q = {0}; // free; in C++ {}
 *     brancove_told told;
 *     do {
 *         if (brancove_ask(&q, record, mode) != BRANCOVE_ACCEPTED)
 *             FAIL("the request is in use, or there is no such mode");
 *         do {
 *             told = brancove_step_takes(&q, SEND(record, brancove_step_sends(&q)));
 *             if (told.outcome == BRANCOVE_TOLD_WAITING)
 *                 PAUSE(told.ahead);
 *         } while (q.phase != BRANCOVE_PHASE_HELD && q.phase != BRANCOVE_PHASE_FREE);
 *         if (told.outcome == BRANCOVE_TOLD_PASSED)
 *             FAIL("passed: was everything kept that a caller owes?");
 *         if (told.outcome == BRANCOVE_TOLD_WITHDRAWN)
 *             PAUSE(0); // the record was full: ask again later
 *     } while (q.phase == BRANCOVE_PHASE_FREE);
 *
 *     // held: read the record, and write it if the mode is a writer's
 *
 *     told = brancove_release_takes(&q, SEND(record, brancove_release_sends(&q)));
 *     while (q.phase == BRANCOVE_PHASE_CLEARING) { // it drew the last ticket: nobody gets another before it has cleared the word
 *         told = brancove_step_takes(&q, SEND(record, brancove_step_sends(&q)));
 *         if (told.outcome == BRANCOVE_TOLD_NOT_YET_CLEAR)
 *             PAUSE(0);
 *     }
 *
 * What a caller owes:
 *   - One `_sends`, one verb, one `_takes`, in this order. With kind NOTHING no verb is sent.
 *   - Never send an add again whose fate is unknown. One that was done and whose result was lost has drawn a ticket that nobody has,
 *     and everybody behind it waits for ever; a release or a withdrawal that is done twice can let two holders in.
 *   - Go on until the request is free: through owing after full, and through clearing after the release.
 *   - At most 256 requests in use, on all words and in all processes together. In use is every phase but free.
 *   - At most 4,096 words, records 0 to 4,095. `brancove_ask` takes any number.
 *   - Every word 0 at first, and touched by these verbs alone.
 *   - One thread a request at a time, and no copy of a request in use.
 *   - A pointer to a request that exists. NULL is not tested.
 *   - The order of memory: nothing of the record is read or written before the result that granted it has come, and everything read
 *     or written is complete before the release is sent. With C11 atomics: acquire on the verbs of a step, release on that of a release.
 *
 * A process that dies while it holds or waits blocks its record: a writer blocks everybody behind it, a reader the writers behind it and
 * everybody behind the first of these. They are told waiting, with a number that stops falling. One that dies owing or clearing leaves
 * the record full. A waiting request cannot give up, since others count on its release.
 *
 * A caretaker ends the requests of a lost node in its place, where the node kept them in memory that outlives it. It goes over all of
 * them in passes until none is in use, since one may wait for another, or for a node that lives:
 *
 *     if (q->phase == BRANCOVE_PHASE_HELD)
 *         MEND(q); // the caretaker holds the record now, and a lost writer may have left it half written
 *     told = brancove_care_takes(q, SEND(q->record, brancove_care_sends(q)));
 *
 * A waiting request is not freed by this: it is granted in its turn, and released by the care after that. One that is asking has drawn no
 * ticket: nothing is sent, any number is handed over, and it is freed. No function can test what a caretaker has to know first. Without it two can hold one record:
 *   - The node is fenced. It sends no verb of its own any more, not even a late one, and neither reads nor writes the records: its queue
 *     pairs, to the words and to the records, are closed at the memory's side.
 *   - No add and no swap of it is under way or of unknown fate. Each request is as brancove_ask or the last `_takes` left it, and no add
 *     or swap was sent whose result was not taken. A caretaker's own adds and swaps count like the node's. A request whose ask was sent still says asking, and to free it would leave a ticket that nobody
 *     releases; one whose release was sent still says held, and a second release would let two in. A read may be lost: it changed
 *     nothing. A node that marks the request before it sends an add or a swap, and takes the mark away after `_takes`, lets a
 *     caretaker see this. Where the mark stands there is no care: docs/AGENT.md, "What a death does".
 *   - No two caretakers work on one request, and the node does not come back to it.
 *   - What the node wrote, to the request and to the record, is seen before the first verb of a care.
 *   - All else that a caller owes. The requests stay in use, and count, until they are free.
 *
 * docs/AGENT.md has all of this at length, with RDMA and with what an operator can do; examples/c/first.c is the loop as a program,
 * examples/c/agent.c a whole agent, and examples/c/lost_node.c a caretaker.
 */
#ifndef BRANCOVE_H
#define BRANCOVE_H

#include <stddef.h>
#include <stdint.h>

#ifdef __cplusplus
extern "C" {
#endif

/* The phase of a request. Any other number counts as free. */
enum {
    BRANCOVE_PHASE_FREE = 0,
    BRANCOVE_PHASE_ASKING = 1,  /* a step adds 1 to a ticket counter */
    BRANCOVE_PHASE_WAITING = 2, /* a step reads */
    BRANCOVE_PHASE_HELD = 3,    /* a release adds 1 to a release counter; a step is refused */
    BRANCOVE_PHASE_OWING = 4,   /* turned away: a step takes the 1 back */
    BRANCOVE_PHASE_CLEARING = 5 /* a step swaps the clearing word for 0 */
};

/* The mode of a request. A kept mode other than 0 counts as a writer's. */
enum {
    BRANCOVE_READER = 0,
    BRANCOVE_WRITER = 1
};

/* The kind of a verb. Each verb gives back the word as it was before. */
enum {
    BRANCOVE_VERB_NOTHING = 0, /* there is nothing to send */
    BRANCOVE_VERB_ADD = 1,     /* the word becomes word + first, modulo 2^64 */
    BRANCOVE_VERB_READ = 2,    /* the word stays */
    BRANCOVE_VERB_SWAP = 3     /* the word becomes second if it equals first, else it stays */
};

/* The number of an answer. */
enum {
    BRANCOVE_ACCEPTED = 0,
    BRANCOVE_NO_SUCH_MODE = 3, /* ask: the mode is neither 0 nor 1 */
    BRANCOVE_WRONG_PHASE = 5,  /* ask: the request is in use; step: it is free or held; release: it is not held; care: it is free */
    BRANCOVE_CUT_SHORT = 7,    /* schedule_read: the record runs past the end of the schedule */
    BRANCOVE_UNKNOWN_KIND = 8, /* schedule_read, schedule_write: there is no such kind */
    BRANCOVE_NO_ROOM = 12,     /* schedule_write: the record does not fit, or the place is past the buffer's end */
    BRANCOVE_TOO_LARGE = 18    /* schedule_write: a number is too large for its field, or not 0 where the kind has no such field */
};

/* The outcome of an accepted answer. */
enum {
    BRANCOVE_TOLD_NOTHING = 0,       /* with a refusal */
    BRANCOVE_TOLD_GRANTED = 2,       /* phase held */
    BRANCOVE_TOLD_WAITING = 3,       /* phase waiting, with the number ahead */
    BRANCOVE_TOLD_FULL = 4,          /* phase owing: no ticket is given */
    BRANCOVE_TOLD_WITHDRAWN = 5,     /* free */
    BRANCOVE_TOLD_RELEASED = 6,      /* free */
    BRANCOVE_TOLD_CLEARING_DUE = 7,  /* released, phase clearing */
    BRANCOVE_TOLD_CLEARED = 8,       /* free, and the word is 0 */
    BRANCOVE_TOLD_NOT_YET_CLEAR = 9, /* phase clearing */
    BRANCOVE_TOLD_PASSED = 11,       /* free: its turn is over */
    BRANCOVE_TOLD_FREED_UNASKED = 12 /* free: by a care, before it asked */
};

/* The kind of a record of a schedule, and the numbers that go with it, in their order: first, second, third. */
enum {
    BRANCOVE_KIND_NONE = 0,    /* no record stands there */
    BRANCOVE_KIND_OPEN = 1,    /* record (2 bytes), mode (1) */
    BRANCOVE_KIND_STEP = 2,    /* slot (1) */
    BRANCOVE_KIND_RELEASE = 3, /* slot (1) */
    BRANCOVE_KIND_SHOW = 4,    /* record (2) */
    BRANCOVE_KIND_OPEN_AS = 5, /* record (2), mode (1), node (1) */
    BRANCOVE_KIND_FENCE = 6,   /* node (1) */
    BRANCOVE_KIND_CARE = 7     /* slot (1) */
};

/* A request: 16 bytes, aligned as uint64_t, all zero when free. It is updated where the caller stores it. */
typedef struct brancove_request {
    uint16_t record;
    uint8_t mode;
    uint8_t phase;
    uint16_t x;        /* the ticket */
    uint16_t s;
    uint64_t clearing; /* the clearing word, 0 for none */
} brancove_request;

/* A verb to send to the lock word of the request's record. */
typedef struct brancove_verb {
    uint8_t kind;
    uint64_t first;  /* the number of an add; the old word of a swap */
    uint64_t second; /* the new word of a swap */
} brancove_verb;

/* What a request is told. */
typedef struct brancove_told {
    uint8_t number;
    uint8_t outcome;
    /* where the outcome is to wait: how many earlier tickets it waits for, a reader for writers, a writer for both kinds; else 0 */
    uint64_t ahead;
} brancove_told;

/* The four counters of a lock word, highest bits first: releases of writers and readers, then their next tickets. */
typedef struct brancove_counters {
    uint16_t nx;
    uint16_t ns;
    uint16_t mx;
    uint16_t ms;
} brancove_counters;

/* What stands at a place of a schedule. */
typedef struct brancove_standing {
    uint8_t number;  /* 0, or 7 or 8 where the schedule cannot be read on */
    uint8_t kind;    /* of the record that stands there; 0 where none does: with number 0 that is the end */
    uint64_t first;  /* the record's numbers; 0 where the kind has no such field */
    uint64_t second;
    uint64_t third;
    size_t next;     /* the place behind the record; where none stands, the place that was asked for */
} brancove_standing;

/* What became of a record that was to be written. */
typedef struct brancove_placed {
    uint8_t number; /* 0, 8, 12 or 18 */
    size_t place;   /* the next free place; where the record was refused, the place that was given */
} brancove_placed;

/* Makes a free request ask for a record. Gives 0, or 3 or 5 and leaves the request. */
uint8_t brancove_ask(brancove_request *q, uint16_t record, uint8_t mode);

/* The verb of a step, or of a release. The request stays as it is. */
brancove_verb brancove_step_sends(brancove_request *q);
brancove_verb brancove_release_sends(brancove_request *q);

/* What the request becomes with the verb's result. A refusal leaves the request. */
brancove_told brancove_step_takes(brancove_request *q, uint64_t result);
brancove_told brancove_release_takes(brancove_request *q, uint64_t result);

/*
 * The verb of a care, and what the request becomes with its result: for a caretaker alone, on what the head of this file says. By phase:
 *   free                     refused, as a step is
 *   asking                   nothing to send; freed with outcome 12, whatever result is handed over
 *   waiting, owing, clearing a step
 *   held                     a release
 */
brancove_verb brancove_care_sends(brancove_request *q);
brancove_told brancove_care_takes(brancove_request *q, uint64_t result);

/* The counters of a word. */
brancove_counters brancove_split(uint64_t word);

/*
 * Schedules: these two functions are in libschedule_c.a (x86-64), which needs no other archive. A schedule is bytes, one record behind the
 * other: a byte of kind, then the kind's numbers, each low byte first. A tool that builds one writes record after record, from place 0 on,
 * each at the place that the last one gave; a tool that takes one apart reads from place 0 on, until kind is 0. What was written is read as
 * the same kind and numbers, and writing what was read gives the same bytes: both are proved, of records and of whole schedules.
 *
 * Read says what stands at a place, for any bytes, any length and any place. Where the kind is unknown, with 8, schedule[place] is that kind.
 *
 * Write puts a record at a place of the buffer and gives the next free place. It refuses with the first that applies: 8, there is no such
 * kind, 0 and those above 255 among them; 18, a number is too large for its field, or not 0 where the kind has no such field; 12, the record
 * does not fit behind the place, as at the buffer's end and past it. A refusal leaves buffer and place. Only the record's bytes are written.
 * A record of a call that the board would refuse is written all the same: mode 7, say.
 *
 * The schedule, or the buffer, is `length` bytes from the pointer on. The pointer is not tested, and should not be NULL with length 0 either.
 */
brancove_standing brancove_schedule_read(const uint8_t *schedule, size_t length, size_t place);
brancove_placed brancove_schedule_write(uint8_t *buffer, size_t length, size_t place, uint64_t kind, uint64_t first, uint64_t second,
                                        uint64_t third);

#ifdef __cplusplus
}
#endif

/* The layout that the archives were compiled for. */
#if defined(__cplusplus) && __cplusplus >= 201103L
#define BRANCOVE_LAYOUT(name, holds) static_assert(holds, "brancove: " #name)
#elif defined(__STDC_VERSION__) && __STDC_VERSION__ >= 201112L
#define BRANCOVE_LAYOUT(name, holds) _Static_assert(holds, "brancove: " #name)
#else
#define BRANCOVE_LAYOUT(name, holds) typedef char brancove_layout_##name[(holds) ? 1 : -1]
#endif

BRANCOVE_LAYOUT(request_size, sizeof(brancove_request) == 16);
BRANCOVE_LAYOUT(request_record, offsetof(brancove_request, record) == 0);
BRANCOVE_LAYOUT(request_mode, offsetof(brancove_request, mode) == 2);
BRANCOVE_LAYOUT(request_phase, offsetof(brancove_request, phase) == 3);
BRANCOVE_LAYOUT(request_x, offsetof(brancove_request, x) == 4);
BRANCOVE_LAYOUT(request_s, offsetof(brancove_request, s) == 6);
BRANCOVE_LAYOUT(request_clearing, offsetof(brancove_request, clearing) == 8);

BRANCOVE_LAYOUT(verb_size, sizeof(brancove_verb) == 24);
BRANCOVE_LAYOUT(verb_kind, offsetof(brancove_verb, kind) == 0);
BRANCOVE_LAYOUT(verb_first, offsetof(brancove_verb, first) == 8);
BRANCOVE_LAYOUT(verb_second, offsetof(brancove_verb, second) == 16);

BRANCOVE_LAYOUT(told_size, sizeof(brancove_told) == 16);
BRANCOVE_LAYOUT(told_number, offsetof(brancove_told, number) == 0);
BRANCOVE_LAYOUT(told_outcome, offsetof(brancove_told, outcome) == 1);
BRANCOVE_LAYOUT(told_ahead, offsetof(brancove_told, ahead) == 8);

BRANCOVE_LAYOUT(counters_size, sizeof(brancove_counters) == 8);
BRANCOVE_LAYOUT(counters_nx, offsetof(brancove_counters, nx) == 0);
BRANCOVE_LAYOUT(counters_ns, offsetof(brancove_counters, ns) == 2);
BRANCOVE_LAYOUT(counters_mx, offsetof(brancove_counters, mx) == 4);
BRANCOVE_LAYOUT(counters_ms, offsetof(brancove_counters, ms) == 6);

BRANCOVE_LAYOUT(standing_size, sizeof(brancove_standing) == 40);
BRANCOVE_LAYOUT(standing_number, offsetof(brancove_standing, number) == 0);
BRANCOVE_LAYOUT(standing_kind, offsetof(brancove_standing, kind) == 1);
BRANCOVE_LAYOUT(standing_first, offsetof(brancove_standing, first) == 8);
BRANCOVE_LAYOUT(standing_second, offsetof(brancove_standing, second) == 16);
BRANCOVE_LAYOUT(standing_third, offsetof(brancove_standing, third) == 24);
BRANCOVE_LAYOUT(standing_next, offsetof(brancove_standing, next) == 32);

BRANCOVE_LAYOUT(placed_size, sizeof(brancove_placed) == 16);
BRANCOVE_LAYOUT(placed_number, offsetof(brancove_placed, number) == 0);
BRANCOVE_LAYOUT(placed_place, offsetof(brancove_placed, place) == 8);

#undef BRANCOVE_LAYOUT

#endif
