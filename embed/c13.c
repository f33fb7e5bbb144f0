/* 01's game C13 from C: prints the lines that ./play prints for sessions/c13-thief-between.session. Then rings are looked for where they lie, and words
   that are no machine's are lent, and must be refused with nothing changed. No system header is needed. */
#include "hub_queues.h"

int printf(const char *format, ...);

#define QUEUES 2
#define PLACES 2
#define CELLS (PLACES * HUB_QUEUES_PLACE_CELLS)

static uint64_t machine[HUB_QUEUES_MACHINE_WORDS];
static uint64_t pool[CELLS];
static uint64_t answer[HUB_QUEUES_ANSWER_WORDS];
static uint64_t part[HUB_QUEUES_PART_WORDS];

/* ---- a call and its line */

static void print_number(const char *before, uint64_t number)
{
    printf("%s%llu", before, (unsigned long long)number);
}

/* The number with these two's complement bits. */
static void print_signed(const char *before, uint64_t bits)
{
    if (bits >> 63) {
        printf("%s-%llu", before, (unsigned long long)(0 - bits));
    } else {
        print_number(before, bits);
    }
}

static void print_answer(void)
{
    switch (answer[0]) {
    case HUB_QUEUES_WORKING: printf("working"); break;
    case HUB_QUEUES_DONE: printf("done"); break;
    case HUB_QUEUES_JOB: print_number("job ", answer[2]); break;
    case HUB_QUEUES_NOTHING: printf("nothing"); break;
    case HUB_QUEUES_EMPTY: printf("empty"); break;
    case HUB_QUEUES_TOOK: print_number("took ", answer[2]); break;
    case HUB_QUEUES_RETRY: printf("retry"); break;
    case HUB_QUEUES_MOVED: printf("moved"); break;
    case HUB_QUEUES_COUNTED:
        print_signed("length ", answer[2]);
        print_number(" ", answer[3]);
        break;
    case HUB_QUEUES_GAVE_UP: print_number("gave-up ", answer[1]); break;
    case HUB_QUEUES_REFUSED: print_number("refused ", answer[1]); break;
    default: printf("no such call"); break;
    }
}

/* Front, back, ring, place and capacity, by the table of docs/EMBEDDING.md. */
static void print_queue(size_t q)
{
    const uint64_t *words = machine + 3 + 6 * q;
    print_signed("\t", words[1]);
    print_signed(" ", words[2]);
    print_number(" ", words[3]);
    print_number(" ", words[4]);
    print_number(" ", words[5]);
}

static void call(size_t thread, uint64_t kind, size_t source, uint64_t operand)
{
    size_t q;
    hub_queues_call(machine, HUB_QUEUES_MACHINE_WORDS, pool, CELLS, thread, kind, source, operand, answer);
    print_answer();
    for (q = 0; q < QUEUES; q++) {
        print_queue(q);
    }
    printf("\n");
}

static void steps(size_t thread, int count)
{
    while (count-- > 0) {
        call(thread, HUB_QUEUES_STEP, 0, 0);
    }
}

/* ---- what must hold besides */

static uint64_t machine_before[HUB_QUEUES_MACHINE_WORDS];
static uint64_t pool_before[CELLS];

/* The answer is filled, so that a word that a call does not write is seen. */
static void remember(void)
{
    size_t i;
    for (i = 0; i < HUB_QUEUES_MACHINE_WORDS; i++) {
        machine_before[i] = machine[i];
    }
    for (i = 0; i < CELLS; i++) {
        pool_before[i] = pool[i];
    }
    for (i = 0; i < HUB_QUEUES_ANSWER_WORDS; i++) {
        answer[i] = 99;
    }
}

static int is_as_it_was(void)
{
    size_t i;
    for (i = 0; i < HUB_QUEUES_MACHINE_WORDS; i++) {
        if (machine[i] != machine_before[i]) {
            return 0;
        }
    }
    for (i = 0; i < CELLS; i++) {
        if (pool[i] != pool_before[i]) {
            return 0;
        }
    }
    return 1;
}

static int is_answer(uint64_t kind, uint64_t number)
{
    return answer[0] == kind && answer[1] == number && answer[2] == 0 && answer[3] == 0;
}

static int failures;

static void expect(int holds, const char *what)
{
    if (!holds) {
        printf("c13: not so: %s\n", what);
        failures++;
    }
}

/* A call that changes nothing, on so many words of the machine. */
static void expect_unchanged(size_t words, uint64_t kind, uint64_t answer_kind, uint64_t number, const char *what)
{
    remember();
    hub_queues_call(machine, words, pool, CELLS, 0, kind, 0, 8, answer);
    expect(is_answer(answer_kind, number) && is_as_it_was(), what);
}

/* The queue's ring lies in so many cells, from this one on; the machine is as it was. */
static void expect_shown(size_t pool_cells, size_t queue, uint64_t start, uint64_t count, const char *what)
{
    remember();
    part[0] = part[1] = 99;
    hub_queues_shown(machine, HUB_QUEUES_MACHINE_WORDS, pool_cells, queue, part);
    expect(part[0] == start && part[1] == count && is_as_it_was(), what);
}

/* Words that are a machine's but for this one: every kind of call refuses them, and no ring is shown. */
static void expect_no_machine(size_t word, uint64_t value, const char *what)
{
    uint64_t own = machine[word];
    uint64_t kind;
    machine[word] = value;
    for (kind = HUB_QUEUES_STEP; kind <= HUB_QUEUES_BATCH_AND_POP; kind++) {
        expect_unchanged(HUB_QUEUES_MACHINE_WORDS, kind, HUB_QUEUES_REFUSED, 3, what);
    }
    expect_shown(CELLS, 0, 0, 0, what);
    machine[word] = own;
}

/* One queue in the same pool: the 65th job makes its ring grow, from place 0 into place 1. */
static void expect_growth(void)
{
    uint64_t i;
    hub_queues_setup(machine, HUB_QUEUES_MACHINE_WORDS, pool, CELLS, 1, 0, PLACES, answer);
    for (i = 0; i < 65; i++) {
        hub_queues_call(machine, HUB_QUEUES_MACHINE_WORDS, pool, CELLS, 0, HUB_QUEUES_PUSH, 0, 100 + i, answer);
        while (answer[0] == HUB_QUEUES_WORKING) {
            hub_queues_call(machine, HUB_QUEUES_MACHINE_WORDS, pool, CELLS, 0, HUB_QUEUES_STEP, 0, 0, answer);
        }
    }
    expect_shown(CELLS, 0, 256, 128, "the ring that has grown has the first 128 cells of place 1");
    for (i = 0; i < 65; i++) {
        expect(pool[part[0] + i] == 100 + i, "the jobs stand in the ring that is shown");
    }
}

int main(void)
{
    hub_queues_setup(machine, HUB_QUEUES_MACHINE_WORDS, pool, CELLS, QUEUES, 0, PLACES, answer);
    expect(is_answer(HUB_QUEUES_DONE, 0), "setup is done");

    call(0, HUB_QUEUES_PUSH, 0, 7);
    steps(0, 4);
    call(0, HUB_QUEUES_POP, 0, 0);
    steps(0, 2); /* the owner saw one job */
    call(1, HUB_QUEUES_STEAL, 0, 0);
    steps(1, 6); /* the thief takes it */
    steps(0, 1); /* fetch-and-add: front 2, back 1 */
    call(1, HUB_QUEUES_LENGTH, 0, 0);
    steps(1, 2); /* difference -1, length 0 */
    steps(0, 1); /* front 1 again, and nothing */

    expect_shown(CELLS, 0, 0, 64, "queue 0 shows the first 64 cells of place 0");
    expect(pool[part[0]] == 7, "the first of them still has job 7");
    expect_shown(CELLS, 1, 256, 64, "queue 1 shows the first 64 cells of place 1");
    expect_shown(CELLS, QUEUES, 0, 0, "a queue that is not there shows nothing");
    expect_shown(CELLS - 1, 1, 0, 0, "a pool of another length shows nothing");

    expect_no_machine(3, 2, "a flavour of 2 is no machine's");
    expect_no_machine(27, 8, "an operation of 8 is no machine's");
    expect_no_machine(27 + 4, 1, "an idle thread that remembers something is no machine's");
    expect_unchanged(HUB_QUEUES_MACHINE_WORDS - 1, HUB_QUEUES_PUSH, HUB_QUEUES_REFUSED, 3, "90 words are no machine");
    expect_unchanged(HUB_QUEUES_MACHINE_WORDS, 8, HUB_QUEUES_NO_CALL, 0, "there is no call of kind 8");
    remember();
    hub_queues_setup(machine, HUB_QUEUES_MACHINE_WORDS - 1, pool, CELLS, QUEUES, 0, PLACES, answer);
    expect(is_answer(HUB_QUEUES_REFUSED, 3) && is_as_it_was(), "setup refuses 90 words");

    expect_growth();
    return failures != 0;
}
