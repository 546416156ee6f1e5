/*
 * Nodes that are lost, and a caretaker. The nodes are threads that take records as in threads.c. In each round some of them fall silent in
 * the middle of a request, at about the same time: asking, waiting, holding, owing, clearing. Whoever is behind them waits. A silent node
 * is fenced, and the caretaker goes over the requests that fenced nodes left, in passes, until none is left, while the others go on. The
 * checks are those of threads.c: a writer is alone, also where the caretaker holds in its place, nobody is told that its ticket has
 * passed, every request ends. See --help.
 */
#define SCENE "lost_node"
#include "scene.h"

static const char *const usage =
    "usage: lost_node [ROUNDS [NODES [RECORDS [REQUESTS]]]]\n"
    "\n"
    "In each of ROUNDS (300 if not given) NODES (1 to 200, 8) make REQUESTS (1 to 100000, 400) each for one of RECORDS (1 to 64, 2), a\n"
    "quarter as writers, and some nodes are lost. Before a round each word is brought near its ceiling, since only there nodes owe and\n"
    "clear. Status 1: a promise was broken, or nothing got on for 30 seconds.\n";

enum { CEILING = 32768, PHASES = 6 };

/* The phases that nodes are lost in, one node after the other. Free: it lives. */
static const uint8_t lost_in[] = {BRANCOVE_PHASE_ASKING, BRANCOVE_PHASE_WAITING, BRANCOVE_PHASE_HELD,     BRANCOVE_PHASE_OWING,
                                  BRANCOVE_PHASE_CLEARING, BRANCOVE_PHASE_OWING, BRANCOVE_PHASE_CLEARING, BRANCOVE_PHASE_FREE};

struct node {
    pthread_t thread;
    struct agent agent;      /* where the caretaker finds the request of a lost node */
    uint64_t dice;
    uint8_t lost_in;
    uint64_t saw;            /* of a reader that holds */
    uint64_t wrote[MOST_RECORDS];
    _Atomic uint64_t ended;
    _Atomic bool silent;     /* set by the node, by its last act */
    _Atomic bool fenced;     /* set by main: from now on the request is the caretaker's */
    bool joined;
};
static struct node fleet[MOST_THREADS];
static unsigned rounds = 300, nodes = 8, records = 2, requests = 400;
static unsigned lost_after; /* so many requests a node is lost, when it next comes to its phase */
static pthread_barrier_t start;
static _Atomic bool all_silent;

static uint64_t ended, lost[PHASES], turned_away, cleared; /* totals */
static uint64_t passes, cares, unasked;                    /* the caretaker's */

/* A hold, from the grant to the release: by the node, or by the caretaker in its place. A lost writer's work is half done; whoever lets go
 * in its place mends the record first. */
static void begin_hold(struct node *node)
{
    if (node->agent.request.mode == BRANCOVE_WRITER)
        begin_write(node->agent.request.record);
    else
        node->saw = begin_read(node->agent.request.record);
}

static void end_hold(struct node *node)
{
    unsigned record = node->agent.request.record;
    if (node->agent.request.mode == BRANCOVE_WRITER) {
        end_write(record);
        node->wrote[record]++;
    } else {
        end_read(record, node->saw);
    }
}

/* One step, release or care of a node's request. True: it got on. */
static bool move(struct node *node, brancove_told (*one)(struct agent *))
{
    struct agent *agent = &node->agent;
    unsigned record = agent->request.record;
    if (agent->request.phase == BRANCOVE_PHASE_HELD)
        end_hold(node);
    switch (one(agent).outcome) {
    case BRANCOVE_TOLD_WAITING:
    case BRANCOVE_TOLD_NOT_YET_CLEAR:
        return false;
    case BRANCOVE_TOLD_GRANTED:
        begin_hold(node);
        return true;
    case BRANCOVE_TOLD_WITHDRAWN:
        agent->turned_away++;
        return true;
    case BRANCOVE_TOLD_CLEARED:
        agent->cleared++;
        return true;
    case BRANCOVE_TOLD_FREED_UNASKED:
        unasked++;
        return true;
    case BRANCOVE_TOLD_NOTHING:
        violation("a step, a release or a care was refused", record);
    case BRANCOVE_TOLD_PASSED:
        violation("a request was told that its ticket has passed", record);
    default:
        return true;
    }
}

/* One request of a node, verb by verb. False: the node is lost in it. */
static bool one_request(struct node *node)
{
    struct agent *agent = &node->agent;
    uint16_t record = (uint16_t)below(&node->dice, records);
    uint8_t mode = below(&node->dice, 4) == 0 ? BRANCOVE_WRITER : BRANCOVE_READER;
    if (brancove_ask(&agent->request, record, mode) != BRANCOVE_ACCEPTED)
        violation("an ask was refused", record);
    for (uint8_t phase; (phase = agent->request.phase) != BRANCOVE_PHASE_FREE;) {
        if (phase == node->lost_in && atomic_load(&node->ended) >= lost_after)
            return false;
        if (phase == BRANCOVE_PHASE_HELD)
            work(&node->dice);
        if (!move(node, phase == BRANCOVE_PHASE_HELD ? agent_release : agent_step))
            wait_for_turn(0);
        if (phase == BRANCOVE_PHASE_OWING)
            wait_for_room((unsigned)agent->turned_away);
        if (phase == BRANCOVE_PHASE_HELD)
            atomic_fetch_add(&node->ended, 1);
    }
    return true;
}

static void *run(void *argument)
{
    struct node *node = argument;
    pthread_barrier_wait(&start);
    while (atomic_load(&node->ended) < requests && one_request(node)) {
    }
    atomic_store(&node->silent, true);
    return NULL;
}

/* The caretaker: passes over what fenced nodes left, lowest first, until all are silent and nothing is left. */
static void *take_care(void *none)
{
    const struct timespec pause = {0, 20000};
    for (;;) {
        bool alone = atomic_load(&all_silent);
        unsigned left = 0, got_on = 0;
        for (unsigned i = 0; i < nodes; i++) {
            struct node *node = &fleet[i];
            if (!atomic_load(&node->fenced) || node->agent.request.phase == BRANCOVE_PHASE_FREE)
                continue;
            left++;
            got_on += move(node, agent_care);
        }
        if (left == 0 && alone)
            return none;
        cares += left;
        passes += left > 0;
        if (got_on == 0 && alone)
            violation("only lost nodes are left, and no care gets one on", 0);
        if (got_on == 0)
            nanosleep(&pause, NULL);
    }
}

/*
 * Who is silent has ended, or is lost. Silence alone is not enough to touch a request: here a node's thread is joined, after which it
 * sends nothing; with RDMA the memory's side closes its queue pairs. And no verb may be under way whose result was not taken.
 */
static void fence_the_silent(void)
{
    const struct timespec pause = {0, 100000};
    uint64_t before = 0;
    unsigned silent = 0;
    for (double since = now(); silent < nodes;) {
        uint64_t got_on = 0;
        nanosleep(&pause, NULL);
        for (unsigned i = 0; i < nodes; i++) {
            struct node *node = &fleet[i];
            if (!node->joined && atomic_load(&node->silent)) {
                pthread_join(node->thread, NULL);
                node->joined = true;
                silent++;
                if (node->agent.under_way)
                    violation("a node was lost with a verb under way", node->agent.request.record);
                if (node->agent.request.phase != BRANCOVE_PHASE_FREE) {
                    lost[node->agent.request.phase]++;
                    atomic_store(&node->fenced, true);
                }
            }
            got_on += atomic_load(&node->ended);
        }
        got_on += silent;
        if (got_on != before)
            since = now();
        else if (now() - since > PATIENCE)
            violation("no request ends any more", 0);
        before = got_on;
    }
}

/* Brings each word so near its ceiling that the round goes over it: only there nodes owe and clear. */
static void wear_the_words(void)
{
    uint64_t half = (uint64_t)nodes * requests / records / 4;
    struct agent agent = new_agent();
    for (unsigned record = 0; record < records; record++)
        while (brancove_split(atomic_load(&words[record])).ms + half < CEILING)
            if (!agent_take(&agent, (uint16_t)record, BRANCOVE_READER) || !agent_give_back(&agent))
                violation(agent.wrong, record);
}

static void look_at_the_round(void)
{
    static const brancove_request free_request;
    for (unsigned i = 0; i < nodes; i++) {
        const struct node *node = &fleet[i];
        if (memcmp(&node->agent.request, &free_request, sizeof free_request) != 0)
            violation("a request did not end", node->agent.request.record);
        ended += node->ended;
        turned_away += node->agent.turned_away;
        cleared += node->agent.cleared;
    }
    for (unsigned record = 0; record < records; record++) {
        uint64_t wrote = 0;
        for (unsigned i = 0; i < nodes; i++)
            wrote += fleet[i].wrote[record];
        look_at_the_end(record, wrote);
    }
    if (unasked != lost[BRANCOVE_PHASE_ASKING])
        violation("a request that never asked was not freed as one", 0);
}

static void play_a_round(void)
{
    pthread_t caretaker;
    wear_the_words();
    lost_after = below(&fleet[0].dice, requests);
    atomic_store(&all_silent, false);
    for (unsigned i = 0; i < nodes; i++) {
        struct node *node = &fleet[i];
        node->agent = new_agent();
        node->lost_in = lost_in[i % sizeof lost_in];
        node->ended = 0;
        node->silent = node->fenced = node->joined = false;
        begin_thread(&node->thread, run, node);
    }
    begin_thread(&caretaker, take_care, NULL);
    pthread_barrier_wait(&start);
    fence_the_silent();
    atomic_store(&all_silent, true);
    pthread_join(caretaker, NULL);
    look_at_the_round();
}

int main(int count, char **arguments)
{
    if (count == 2 && strcmp(arguments[1], "--help") == 0) {
        fputs(usage, stdout);
        return 0;
    }
    if (count > 5 || (count > 1 && !number(arguments[1], 1, 1000000, &rounds)) ||
        (count > 2 && !number(arguments[2], 1, MOST_THREADS, &nodes)) ||
        (count > 3 && !number(arguments[3], 1, MOST_RECORDS, &records)) ||
        (count > 4 && !number(arguments[4], 1, 100000, &requests))) {
        fputs(usage, stderr);
        return 2;
    }
    pthread_barrier_init(&start, NULL, nodes + 1);
    for (unsigned i = 0; i < nodes; i++)
        fleet[i].dice = 0x9e3779b97f4a7c15u * (i + 1);
    for (unsigned round = 0; round < rounds; round++)
        play_a_round();
    printf("%u rounds, %u nodes, %u records: %llu requests ended, no promise broken\n", rounds, nodes, records, (unsigned long long)ended);
    printf("%llu turned away, %llu times a word cleared\n", (unsigned long long)turned_away, (unsigned long long)cleared);
    printf("nodes lost: %llu asking, %llu waiting, %llu holding, %llu owing, %llu clearing\n",
           (unsigned long long)lost[BRANCOVE_PHASE_ASKING], (unsigned long long)lost[BRANCOVE_PHASE_WAITING],
           (unsigned long long)lost[BRANCOVE_PHASE_HELD], (unsigned long long)lost[BRANCOVE_PHASE_OWING],
           (unsigned long long)lost[BRANCOVE_PHASE_CLEARING]);
    printf("%llu cares in %llu passes: nothing is left of them\n", (unsigned long long)cares, (unsigned long long)passes);
    return 0;
}
