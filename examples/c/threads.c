/*
 * Threads that take records as readers and writers and hold every hold against the promises: a writer is alone, nobody is told that
 * its ticket has passed, every request ends. See --help.
 */
#define SCENE "threads"
#include "scene.h"

static const char *const usage =
    "usage: threads [THREADS [RECORDS [REQUESTS [WRITERS]]]]\n"
    "\n"
    "THREADS (1 to 200, 4 if not given) each make REQUESTS (300000) for one of RECORDS (1 to 64, 2), WRITERS (0 to 100, 25) of a hundred\n"
    "as writers. The last lines are verbs per second and the longest wait in reads. Status 1: a promise was broken, or no request\n"
    "ended for 30 seconds.\n";

struct worker {
    pthread_t thread;
    struct agent agent;
    uint64_t dice;
    uint64_t wrote[MOST_RECORDS];
    _Atomic uint64_t ended;
    double finished;
};
static struct worker workers[MOST_THREADS];
static unsigned threads = 4, records = 2, requests = 300000, writers = 25;
static pthread_barrier_t start;

static void *run(void *argument)
{
    struct worker *worker = argument;
    pthread_barrier_wait(&start);
    for (unsigned i = 0; i < requests; i++) {
        unsigned record = below(&worker->dice, records);
        uint8_t mode = below(&worker->dice, 100) < writers ? BRANCOVE_WRITER : BRANCOVE_READER;
        if (!agent_take(&worker->agent, (uint16_t)record, mode))
            violation(worker->agent.wrong, record);
        if (mode == BRANCOVE_WRITER) {
            begin_write(record);
            work(&worker->dice);
            end_write(record);
            worker->wrote[record]++;
        } else {
            uint64_t saw = begin_read(record);
            work(&worker->dice);
            end_read(record, saw);
        }
        if (!agent_give_back(&worker->agent))
            violation(worker->agent.wrong, record);
        if (worker->agent.request.phase != BRANCOVE_PHASE_FREE)
            violation("a request did not end", record);
        if (i + 1 == requests)
            worker->finished = now();
        atomic_fetch_add(&worker->ended, 1);
    }
    return NULL;
}

/* Waits until all requests have ended, or none has for PATIENCE seconds. */
static void watch(void)
{
    const struct timespec pause = {0, 10000000};
    uint64_t all = (uint64_t)threads * requests, before = 0;
    for (unsigned still = 0; before < all; still++) {
        uint64_t ended = 0;
        nanosleep(&pause, NULL);
        for (unsigned i = 0; i < threads; i++)
            ended += atomic_load(&workers[i].ended);
        if (ended != before)
            still = 0;
        else if (still > PATIENCE * 100)
            violation("no request ends any more", 0);
        before = ended;
    }
}

static void print_totals(double seconds)
{
    uint64_t verbs = 0, longest = 0, away = 0, cleared = 0;
    for (unsigned i = 0; i < threads; i++) {
        const struct agent *agent = &workers[i].agent;
        verbs += agent->verbs;
        away += agent->turned_away;
        cleared += agent->cleared;
        if (agent->longest_wait > longest)
            longest = agent->longest_wait;
    }
    printf("%u threads, %u records, %u of 100 write: %llu requests ended, no promise broken\n", threads, records, writers,
           (unsigned long long)threads * requests);
    printf("%llu turned away, %llu times a word cleared\n", (unsigned long long)away, (unsigned long long)cleared);
    printf("%.0f requests per second\n", threads * (double)requests / seconds);
    printf("%.0f verbs per second\n", (double)verbs / seconds);
    printf("longest wait: %llu reads\n", (unsigned long long)longest);
}

int main(int count, char **arguments)
{
    if (count == 2 && strcmp(arguments[1], "--help") == 0) {
        fputs(usage, stdout);
        return 0;
    }
    if (count > 5 || (count > 1 && !number(arguments[1], 1, MOST_THREADS, &threads)) ||
        (count > 2 && !number(arguments[2], 1, MOST_RECORDS, &records)) ||
        (count > 3 && !number(arguments[3], 1, 1000000000, &requests)) ||
        (count > 4 && !number(arguments[4], 0, 100, &writers))) {
        fputs(usage, stderr);
        return 2;
    }
    pthread_barrier_init(&start, NULL, threads + 1);
    for (unsigned i = 0; i < threads; i++) {
        workers[i].dice = 0x9e3779b97f4a7c15u * (i + 1);
        workers[i].agent = new_agent();
        begin_thread(&workers[i].thread, run, &workers[i]);
    }
    double started = now();
    pthread_barrier_wait(&start);
    watch();
    double finished = started;
    for (unsigned i = 0; i < threads; i++) {
        pthread_join(workers[i].thread, NULL);
        if (workers[i].finished > finished)
            finished = workers[i].finished;
    }
    for (unsigned record = 0; record < records; record++) {
        uint64_t wrote = 0;
        for (unsigned i = 0; i < threads; i++)
            wrote += workers[i].wrote[record];
        look_at_the_end(record, wrote);
    }
    print_totals(finished - started);
    return 0;
}
