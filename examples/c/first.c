#include <sched.h>
#include <stdatomic.h>
#include "brancove.h"
static _Atomic uint64_t word; /* a record's lock word, 0 at first */
static uint64_t send_verb(brancove_verb verb) { /* once; gives the word as it was before */
    uint64_t found = verb.first;
    if (verb.kind == BRANCOVE_VERB_ADD) return atomic_fetch_add(&word, verb.first);
    if (verb.kind != BRANCOVE_VERB_SWAP) return atomic_load(&word);
    atomic_compare_exchange_strong(&word, &found, verb.second);
    return found;
}
static uint8_t step(brancove_request *q) {
    return brancove_step_takes(q, send_verb(brancove_step_sends(q))).outcome;
}
static int take(brancove_request *q, uint8_t mode) {
    uint8_t told;
    do {
        if (brancove_ask(q, 0, mode) != BRANCOVE_ACCEPTED) return 0;
        do {
            if ((told = step(q)) == BRANCOVE_TOLD_WAITING || told == BRANCOVE_TOLD_WITHDRAWN) sched_yield(); /* try again later */
        } while (q->phase != BRANCOVE_PHASE_HELD && q->phase != BRANCOVE_PHASE_FREE);
        if (told == BRANCOVE_TOLD_PASSED) return 0;
    } while (q->phase == BRANCOVE_PHASE_FREE); /* the record was full: ask again */
    return 1;
}
static void give_back(brancove_request *q) {
    brancove_release_takes(q, send_verb(brancove_release_sends(q)));
    while (q->phase == BRANCOVE_PHASE_CLEARING) /* it drew the last ticket: nobody gets one before the word is cleared */
        if (step(q) == BRANCOVE_TOLD_NOT_YET_CLEAR) sched_yield();
}
int main(void) {
    brancove_request q = {0};
    for (int i = 0; i < 40000; i++) { /* a word has 32,768 tickets of a kind: it is cleared on the way */
        if (!take(&q, BRANCOVE_WRITER)) return 1;
        /* the record is this writer's alone */
        give_back(&q);
    }
    return q.phase != BRANCOVE_PHASE_FREE;
}
