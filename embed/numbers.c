/* The numbers that cross the interface: every kind of call, every kind of answer and every number of 01's table is had once. A line has the names of
   hub_queues.h with the values that they have there and, behind the colon, the four words that were answered. embed/numbers.lines has these lines with
   the numbers written out, those of `told` and `refusal_of` in crates/parts/specs/Answers.antt; no name of the header is compared with itself. */
#include "hub_queues.h"

int printf(const char *format, ...);

#define MOST_PLACES 4

static uint64_t machine[HUB_QUEUES_MACHINE_WORDS];
static uint64_t pool[MOST_PLACES * HUB_QUEUES_PLACE_CELLS];
static size_t cells;
static uint64_t answer[HUB_QUEUES_ANSWER_WORDS];

/* ---- calls */

/* The answer is filled, so that a word that a call does not write is seen. */
static void forget(void)
{
    size_t i;
    for (i = 0; i < HUB_QUEUES_ANSWER_WORDS; i++) {
        answer[i] = 99;
    }
}

static void setup(size_t queues, uint64_t flavors, size_t places)
{
    forget();
    cells = places * HUB_QUEUES_PLACE_CELLS;
    hub_queues_setup(machine, HUB_QUEUES_MACHINE_WORDS, pool, cells, queues, flavors, places, answer);
}

static void call(size_t thread, uint64_t kind, size_t source, uint64_t operand)
{
    forget();
    hub_queues_call(machine, HUB_QUEUES_MACHINE_WORDS, pool, cells, thread, kind, source, operand, answer);
}

static void steps(size_t thread, int count)
{
    while (count-- > 0) {
        call(thread, HUB_QUEUES_STEP, 0, 0);
    }
}

/* A whole operation, which ends in fewer steps than this. */
static void run(size_t thread, uint64_t kind, size_t source, uint64_t operand)
{
    int left = 1000;
    call(thread, kind, source, operand);
    while (answer[0] == 0 && left-- > 0) {
        call(thread, HUB_QUEUES_STEP, 0, 0);
    }
}

/* Jobs first to last. */
static void push(size_t thread, uint64_t first, uint64_t last)
{
    for (; first <= last; first++) {
        run(thread, HUB_QUEUES_PUSH, 0, first);
    }
}

/* ---- lines */

static void print_name(const char *name, uint64_t value)
{
    printf("%s %llu", name, (unsigned long long)value);
}

static void print_answer(const char *name, uint64_t value)
{
    size_t i;
    print_name(name, value);
    printf(":");
    for (i = 0; i < HUB_QUEUES_ANSWER_WORDS; i++) {
        printf(" %llu", (unsigned long long)answer[i]);
    }
    printf("\n");
}

#define SIZE(name) (print_name(#name, HUB_QUEUES_##name), printf("\n"))
#define ANSWERED(name) print_answer(#name, HUB_QUEUES_##name)
#define CALL(thread, kind, source, operand, name) \
    (call(thread, HUB_QUEUES_##kind, source, operand), print_name(#kind, HUB_QUEUES_##kind), printf(", "), ANSWERED(name))
#define RUN(thread, kind, source, operand, name) \
    (run(thread, HUB_QUEUES_##kind, source, operand), print_name(#kind, HUB_QUEUES_##kind), printf(", "), ANSWERED(name))

/* ---- the answers, in the order of their kinds */

static void operations(void)
{
    setup(2, 0, 2);
    ANSWERED(DONE);
    CALL(0, PUSH, 0, 7, WORKING);
    CALL(0, STEP, 0, 0, WORKING);
    steps(0, 2);
    CALL(0, STEP, 0, 0, DONE);
    RUN(0, POP, 0, 0, JOB);
    RUN(0, POP, 0, 0, NOTHING);
    RUN(1, STEAL, 0, 0, EMPTY);
    RUN(1, BATCH, 0, 9, EMPTY);
    RUN(1, BATCH_AND_POP, 0, 9, EMPTY);

    push(0, 11, 17);
    RUN(1, STEAL, 0, 0, TOOK);
    RUN(1, BATCH, 0, 1, MOVED); /* job 12 */
    RUN(1, BATCH_AND_POP, 0, 9, TOOK); /* job 13; jobs 14 and 15 are moved */
    RUN(1, OWN_LENGTH, 0, 0, COUNTED);
    RUN(1, LENGTH, 0, 0, COUNTED);

    call(1, HUB_QUEUES_STEAL, 0, 0);
    steps(1, 5);
    RUN(0, POP, 0, 0, JOB); /* the job that the thief has read */
    CALL(1, STEP, 0, 0, RETRY);

    call(0, HUB_QUEUES_POP, 0, 0);
    steps(0, 2);
    run(1, HUB_QUEUES_STEAL, 0, 0); /* job 17, the last, between two steps of its owner */
    steps(0, 1);
    RUN(1, LENGTH, 0, 0, COUNTED); /* a difference of -1 */
    CALL(0, STEP, 0, 0, NOTHING);
}

static void shortages(void)
{
    setup(1, 0, 3);
    push(0, 1, 256);
    RUN(0, PUSH, 0, 257, GAVE_UP);
    setup(1, 0, 1);
    push(0, 1, 64);
    RUN(0, PUSH, 0, 65, GAVE_UP);
}

static void refusals(void)
{
    setup(2, 0, 2);
    cells--;
    CALL(0, POP, 0, 0, REFUSED);
    cells++;
    setup(5, 0, 4);
    ANSWERED(REFUSED);
    CALL(0, POP, 0, 0, REFUSED); /* the words are zeros now */
    setup(2, 0, 2);
    CALL(2, POP, 0, 0, REFUSED);
    CALL(0, STEAL, 2, 0, REFUSED);
    call(0, HUB_QUEUES_POP, 0, 0);
    CALL(0, POP, 0, 0, REFUSED);
    CALL(1, STEP, 0, 0, REFUSED);
    CALL(1, BATCH, 0, 0, REFUSED);
    CALL(1, BATCH_AND_POP, 0, 0, REFUSED);
    call(1, 8, 0, 0);
    ANSWERED(NO_CALL);
}

/* ---- the flavours: queue q is LIFO where bit q is set, and a LIFO queue answers the later of two jobs */

static void flavors(uint64_t bits)
{
    size_t q;
    setup(4, bits, 4);
    printf("flavors %llu: popped", (unsigned long long)bits);
    for (q = 0; q < 4; q++) {
        push(q, 1, 2);
        run(q, HUB_QUEUES_POP, 0, 0);
        printf(" %llu", (unsigned long long)answer[2]);
    }
    printf("\n");
}

int main(void)
{
    SIZE(MACHINE_WORDS);
    SIZE(PLACE_CELLS);
    SIZE(ANSWER_WORDS);
    SIZE(PART_WORDS);
    operations();
    shortages();
    refusals();
    flavors(1);
    flavors(2);
    flavors(4);
    flavors(8);
    flavors(16); /* there is no queue 4 */
    return 0;
}
