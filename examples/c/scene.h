/*
 * What threads.c and lost_node.c share: the records that the locks guard, with the checks of every hold against the promises, and the
 * small things of a scene with threads. A violation is one line on standard error and status 1. SCENE is the program's name.
 */
#ifndef SCENE_H
#define SCENE_H

#include <pthread.h>
#include <sched.h>
#include <stdio.h>
#include <stdlib.h>
#include <string.h>
#include <time.h>

#include "agent.h"

enum { MOST_THREADS = 200, MOST_RECORDS = 64, WORK = 40, PATIENCE = 30 };

/*
 * What the locks guard. `inside` counts who is inside, a writer as ONE_WRITER. It is relaxed on purpose and the other two are plain: the
 * locks alone order them, so that a thread sanitizer sees an agent whose locks do not (tests/sanitize).
 */
enum { ONE_WRITER = 1 << 16 };
static struct guarded {
    _Atomic uint32_t inside;
    uint64_t begun;
    uint64_t done;
} guarded[MOST_RECORDS];

static lock_word words[MOST_RECORDS];

static _Noreturn inline void violation(const char *what, unsigned record)
{
    fprintf(stderr, SCENE ": VIOLATION: %s (record %u)\n", what, record);
    _Exit(1);
}

/* Gives how many were inside before. */
static inline uint32_t enter(unsigned record, uint32_t who)
{
    return atomic_fetch_add_explicit(&guarded[record].inside, who, memory_order_relaxed);
}

static inline void leave(unsigned record, uint32_t who)
{
    atomic_fetch_sub_explicit(&guarded[record].inside, who, memory_order_relaxed);
}

/* A writer's hold, from the grant to the release. */
static inline void begin_write(unsigned record)
{
    if (enter(record, ONE_WRITER) != 0)
        violation("a writer shares a record", record);
    guarded[record].begun++;
}

static inline void end_write(unsigned record)
{
    guarded[record].done++;
    leave(record, ONE_WRITER);
}

/* A reader's. What it saw at first is what it must see in the end. */
static inline uint64_t begin_read(unsigned record)
{
    if (enter(record, 1) >= ONE_WRITER)
        violation("a reader shares a record with a writer", record);
    return guarded[record].done;
}

static inline void end_read(unsigned record, uint64_t saw)
{
    if (guarded[record].begun != saw)
        violation("a reader saw a writer's work half done", record);
    leave(record, 1);
}

/* At the end each ticket has been released and each withdrawal made, and no writer's work was lost. */
static inline void look_at_the_end(unsigned record, uint64_t wrote)
{
    brancove_counters word = brancove_split(atomic_load(&words[record]));
    if (word.nx != word.mx || word.ns != word.ms)
        violation("tickets and releases differ at the end", record);
    if (guarded[record].begun != wrote || guarded[record].done != wrote)
        violation("a writer's work was lost", record);
}

/* Here a read is cheap. Where it crosses a network, the number ahead says how long the next one can wait. */
static inline void wait_for_turn(uint64_t ahead)
{
    (void)ahead;
    sched_yield();
}

static inline void wait_for_room(unsigned times)
{
    unsigned doublings = times < 8 ? times : 8;
    struct timespec pause = {0, 5000L << doublings};
    nanosleep(&pause, NULL);
}

static inline struct agent new_agent(void)
{
    return (struct agent){.words = words, .wait_for_turn = wait_for_turn, .wait_for_room = wait_for_room};
}

static inline unsigned below(uint64_t *dice, unsigned limit)
{
    *dice ^= *dice << 13;
    *dice ^= *dice >> 7;
    *dice ^= *dice << 17;
    return (unsigned)((*dice >> 32) % limit);
}

/* Now and then whoever is inside lets the others run, so that they meet a held record. */
static inline void work(uint64_t *dice)
{
    for (volatile int i = 0; i < WORK; i++) {
    }
    if (below(dice, 64) == 0)
        sched_yield();
}

static inline double now(void)
{
    struct timespec time;
    clock_gettime(CLOCK_MONOTONIC, &time);
    return (double)time.tv_sec + (double)time.tv_nsec / 1e9;
}

static inline void begin_thread(pthread_t *thread, void *(*run)(void *), void *argument)
{
    if (pthread_create(thread, NULL, run, argument) != 0) {
        fputs(SCENE ": a thread could not be started\n", stderr);
        exit(2);
    }
}

static inline bool number(const char *text, unsigned least, unsigned most, unsigned *into)
{
    char *end;
    unsigned long given = strtoul(text, &end, 10);
    if (*text < '0' || *text > '9' || *end != 0 || given < least || given > most)
        return false;
    *into = (unsigned)given;
    return true;
}

#endif
