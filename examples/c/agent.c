/*
 * The agent. All lock rules are in the archive: this file sends verbs, hands their results back, and looks at what it is told.
 *
 * On a node with an RDMA card a verb is one work request on the 8 aligned bytes of the record's word, and its result is what the
 * card wrote into the local 8 bytes when the request completed:
 *
 *     verb   here                             ibverbs
 *     add    atomic_fetch_add                 IBV_WR_ATOMIC_FETCH_AND_ADD, wr.atomic.compare_add = first
 *     read   atomic_load                      IBV_WR_RDMA_READ of 8 bytes, or an add of 0
 *     swap   atomic_compare_exchange_strong   IBV_WR_ATOMIC_CMP_AND_SWP, wr.atomic.compare_add = first, wr.atomic.swap = second
 *
 * A card's atomics are atomic among themselves and not with the processor's, so there the node that owns the memory uses its card too.
 *
 * The order of memory here: the operation that grants must be an acquire, and the add of a release must be a release, a reader's too.
 * Every change of a word is an add or a swap, never a store, so whoever is granted has synchronized with each release that it counts.
 * The operations below are sequentially consistent, C11's default, which is more than enough. docs/AGENT.md says what RDMA needs.
 */
#include "agent.h"

/* Sends a verb to the request's word and gives the word as it was before. With nothing to send it gives 0. */
static uint64_t send_verb(struct agent *agent, brancove_verb verb)
{
    lock_word *word = &agent->words[agent->request.record];
    uint64_t found = verb.first;
    if (verb.kind == BRANCOVE_VERB_NOTHING)
        return 0;
    agent->verbs++;
    switch (verb.kind) {
    case BRANCOVE_VERB_ADD:
        return atomic_fetch_add(word, verb.first);
    case BRANCOVE_VERB_SWAP:
        atomic_compare_exchange_strong(word, &found, verb.second); /* writes what it found, if that was another word */
        return found;
    default:
        return atomic_load(word);
    }
}

/* The mark is set before an add or a swap is sent, and taken away when its result is taken: whoever finds it set cannot know what became
 * of the verb. A read that is lost changed nothing. */
static brancove_told one_verb(struct agent *agent, brancove_verb (*sends)(brancove_request *),
                              brancove_told (*takes)(brancove_request *, uint64_t))
{
    brancove_verb verb = sends(&agent->request);
    agent->under_way = verb.kind == BRANCOVE_VERB_ADD || verb.kind == BRANCOVE_VERB_SWAP;
    brancove_told told = takes(&agent->request, send_verb(agent, verb));
    agent->under_way = false;
    return told;
}

brancove_told agent_step(struct agent *agent)
{
    return one_verb(agent, brancove_step_sends, brancove_step_takes);
}

brancove_told agent_release(struct agent *agent)
{
    return one_verb(agent, brancove_release_sends, brancove_release_takes);
}

brancove_told agent_care(struct agent *lost)
{
    return one_verb(lost, brancove_care_sends, brancove_care_takes);
}

static bool is_wrong(struct agent *agent, const char *what)
{
    agent->wrong = what;
    return false;
}

/* Asks once and waits for the turn. Ends with the lock held, or with a free request if the record was full. */
static bool ask_once(struct agent *agent, uint16_t record, uint8_t mode)
{
    if (brancove_ask(&agent->request, record, mode) != BRANCOVE_ACCEPTED)
        return is_wrong(agent, "an ask was refused");
    for (uint64_t reads = 0;; reads++) {
        brancove_told told = agent_step(agent);
        switch (told.outcome) {
        case BRANCOVE_TOLD_GRANTED:
            if (reads > agent->longest_wait)
                agent->longest_wait = reads;
            return true;
        case BRANCOVE_TOLD_WAITING:
            agent->wait_for_turn(told.ahead);
            break;
        case BRANCOVE_TOLD_FULL:
            break; /* the next step takes back what the ask has added */
        case BRANCOVE_TOLD_WITHDRAWN:
            agent->turned_away++;
            return true;
        case BRANCOVE_TOLD_PASSED:
            return is_wrong(agent, "a request was told that its ticket has passed");
        default:
            return is_wrong(agent, "a step was told what does not belong to its phase");
        }
    }
}

bool agent_take(struct agent *agent, uint16_t record, uint8_t mode)
{
    for (unsigned times = 1; ask_once(agent, record, mode); times++) {
        if (agent->request.phase == BRANCOVE_PHASE_HELD)
            return true;
        agent->wait_for_room(times);
    }
    return false;
}

bool agent_give_back(struct agent *agent)
{
    brancove_told told = agent_release(agent);
    if (told.outcome == BRANCOVE_TOLD_RELEASED)
        return true;
    if (told.outcome != BRANCOVE_TOLD_CLEARING_DUE)
        return is_wrong(agent, "a release was told what does not belong to it");
    /* This request drew the last ticket of its kind: nobody gets another before the word is cleared. */
    while ((told = agent_step(agent)).outcome == BRANCOVE_TOLD_NOT_YET_CLEAR)
        agent->wait_for_turn(0);
    if (told.outcome != BRANCOVE_TOLD_CLEARED)
        return is_wrong(agent, "a clearing request was told what does not belong to its phase");
    agent->cleared++;
    return true;
}
