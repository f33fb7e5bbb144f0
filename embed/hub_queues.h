/* The hub's work-stealing queues for firmware: embed/library builds what to link with. docs/EMBEDDING.md says how to use them.

   The caller lends stretches of memory, each during a call alone: the machine's words, the pool's cells, the words of the answer. They must be
   aligned for uint64_t, must not be null and must not overlap, and nobody else may touch them during the call. One call at a time. */
#ifndef HUB_QUEUES_H
#define HUB_QUEUES_H

/* A compiler that has no headers has the types under names of its own. One that has no __has_include has the headers. */
#if defined(__has_include)
#if !__has_include(<stdint.h>) || !__has_include(<stddef.h>)
#define HUB_QUEUES_NO_HEADERS
#endif
#endif
#ifdef HUB_QUEUES_NO_HEADERS
typedef __UINT64_TYPE__ uint64_t;
typedef __SIZE_TYPE__ size_t;
#else
#include <stddef.h>
#include <stdint.h>
#endif

/* The words of a machine. Setup writes all of them; from then on they are for the calls alone to change. */
#define HUB_QUEUES_MACHINE_WORDS 91

/* A pool of n places, at most 16 and no fewer than there are queues, is n times so many cells. */
#define HUB_QUEUES_PLACE_CELLS 256

#define HUB_QUEUES_ANSWER_WORDS 4

/* A part of the pool: its first cell, and how many cells it has. */
#define HUB_QUEUES_PART_WORDS 2

/* The kinds of calls. Thread t owns queue t: it pushes to it and pops from it. */
enum hub_queues_kind {
    HUB_QUEUES_STEP = 0,         /* the next step of what the thread began */
    HUB_QUEUES_PUSH = 1,         /* operand: the job */
    HUB_QUEUES_POP = 2,
    HUB_QUEUES_OWN_LENGTH = 3,
    HUB_QUEUES_LENGTH = 4,       /* source: the queue */
    HUB_QUEUES_STEAL = 5,        /* source: the queue */
    HUB_QUEUES_BATCH = 6,        /* source: the queue; operand: at most so many jobs */
    HUB_QUEUES_BATCH_AND_POP = 7 /* source: the queue; operand: at most so many jobs, the one that is answered among them */
};

/* The kinds of answers, an answer's first word. Its second is the number of a refusal or of a shortage, its third a job, or a length's difference in
   two's complement, its fourth a length; words that a kind does not use are 0. */
enum hub_queues_answer {
    HUB_QUEUES_WORKING = 0,  /* begun, or a step that is not the last */
    HUB_QUEUES_DONE = 1,     /* of a push, and of setup */
    HUB_QUEUES_JOB = 2,      /* of a pop, with the job */
    HUB_QUEUES_NOTHING = 3,  /* of a pop */
    HUB_QUEUES_EMPTY = 4,    /* of a steal or a batch: the source has no job */
    HUB_QUEUES_TOOK = 5,     /* of a steal, and of a batch and pop, with the job */
    HUB_QUEUES_RETRY = 6,    /* of a steal or a batch: another thread was first */
    HUB_QUEUES_MOVED = 7,    /* of a batch: the jobs are in the thread's own queue */
    HUB_QUEUES_COUNTED = 8,  /* of a length, with the difference and the length */
    HUB_QUEUES_GAVE_UP = 9,  /* of a push or a batch, with 8 or 9: no job was moved */
    HUB_QUEUES_REFUSED = 10, /* the call was turned away, with 1 to 7 */
    HUB_QUEUES_NO_CALL = 11  /* there is no such kind of call */
};

#ifdef __cplusplus
extern "C" {
#endif

/* A new machine: so many queues, 1 to 4, of which queue q is LIFO where bit q of flavors is set and FIFO otherwise, and so many places in the pool.
   What the words were does not matter; refused with 1 or 2 they are all zeros then. No cell is written. */
void hub_queues_setup(
    uint64_t *machine, size_t machine_words,
    const uint64_t *pool, size_t pool_cells,
    size_t queues, uint64_t flavors, size_t places,
    uint64_t answer[HUB_QUEUES_ANSWER_WORDS]);

/* A thread begins an operation, or takes one step of it. Source and operand are not looked at where the kind does not use them. */
void hub_queues_call(
    uint64_t *machine, size_t machine_words,
    uint64_t *pool, size_t pool_cells,
    size_t thread, uint64_t kind, size_t source, uint64_t operand,
    uint64_t answer[HUB_QUEUES_ANSWER_WORDS]);

/* Where the queue's ring lies in a pool of so many cells: cells part[0] to part[0] + part[1] - 1, the caller's own. 0 and 0: there is no such queue, the
   machine is not sound, or its pool has another length. The pool is not lent, and nothing but part is written. */
void hub_queues_shown(
    const uint64_t *machine, size_t machine_words,
    size_t pool_cells, size_t queue,
    uint64_t part[HUB_QUEUES_PART_WORDS]);

#ifdef __cplusplus
}
#endif

#endif
