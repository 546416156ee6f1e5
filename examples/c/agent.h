/*
 * An agent on a table of lock words that threads share: takes a record's lock and gives it back. How long to wait is the caller's choice.
 * Below that, one verb at a time, for who wants to go verb by verb, and for a caretaker.
 */
#ifndef AGENT_H
#define AGENT_H

#include <stdatomic.h>
#include <stdbool.h>

#include "brancove.h"

typedef _Atomic uint64_t lock_word;

struct agent {
    lock_word *words;                        /* one word a record, 0 at first */
    void (*wait_for_turn)(uint64_t ahead);   /* between two reads; it waits for so many tickets */
    void (*wait_for_room)(unsigned times);   /* after being turned away so many times */
    brancove_request request;                /* all zero at first */
    bool under_way;                          /* an add or a swap is sent and its result not taken: nobody can care for the request */
    const char *wrong;                       /* what should never happen and did, or NULL */

    uint64_t verbs;
    uint64_t longest_wait;                   /* the most reads that one ticket needed */
    uint64_t turned_away;
    uint64_t cleared;
};

/* Takes the lock of a record. False with `wrong` set if the agent was told what no agent should be told. */
bool agent_take(struct agent *agent, uint16_t record, uint8_t mode);

/* Gives the lock back, and clears the word where that is due. */
bool agent_give_back(struct agent *agent);

/* One step or one release: sends its verb, where there is one, and takes the result. */
brancove_told agent_step(struct agent *agent);
brancove_told agent_release(struct agent *agent);

/* One care, by a caretaker, for the agent of a lost node. The node is fenced, and `under_way` is false. */
brancove_told agent_care(struct agent *lost);

#endif
