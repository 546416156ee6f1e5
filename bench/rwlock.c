/*
 * The same load on pthread's reader-writer locks: takes the place of examples/c/agent.c under examples/c/threads.c.
 */
#include <pthread.h>

#include "../examples/c/agent.h"

enum { MOST_RECORDS = 64 };
static pthread_rwlock_t locks[MOST_RECORDS];
static pthread_once_t once = PTHREAD_ONCE_INIT;

static void begin(void)
{
    for (int i = 0; i < MOST_RECORDS; i++)
        pthread_rwlock_init(&locks[i], NULL);
}

bool agent_take(struct agent *agent, uint16_t record, uint8_t mode)
{
    pthread_once(&once, begin);
    agent->request.record = record;
    return (mode == BRANCOVE_WRITER ? pthread_rwlock_wrlock(&locks[record]) : pthread_rwlock_rdlock(&locks[record])) == 0;
}

bool agent_give_back(struct agent *agent)
{
    return pthread_rwlock_unlock(&locks[agent->request.record]) == 0;
}
