/* How deep the calls go into the stack: plays the sessions that are named, each call on a painted stack of its function's own, and prints for each function
   the bytes from that stack's top to the deepest word that was written. The caller's arguments and the return address are among them. After each call every
   queue's ring is looked for. */
#include "hub_queues.h"

typedef struct file FILE;
FILE *fopen(const char *path, const char *mode);
int getc(FILE *file);
int fclose(FILE *file);
int printf(const char *format, ...);

#define MOST_QUEUES 4
#define MOST_PLACES 16
#define STACK_WORDS 32768
#define PAINT 0x5a5aa5a5c3c33c3cu

static uint64_t machine[HUB_QUEUES_MACHINE_WORDS];
static uint64_t pool[MOST_PLACES * HUB_QUEUES_PLACE_CELLS];
static uint64_t answer[HUB_QUEUES_ANSWER_WORDS];
static uint64_t part[HUB_QUEUES_PART_WORDS];

/* ---- the three functions, with their arguments in memory */

static size_t cells, queues, places, thread, source, queue;
static uint64_t flavors, kind, operand;

static void do_setup(void)
{
    hub_queues_setup(machine, HUB_QUEUES_MACHINE_WORDS, pool, cells, queues, flavors, places, answer);
}

static void do_call(void)
{
    hub_queues_call(machine, HUB_QUEUES_MACHINE_WORDS, pool, cells, thread, kind, source, operand, answer);
}

static void do_shown(void)
{
    hub_queues_shown(machine, HUB_QUEUES_MACHINE_WORDS, cells, queue, part);
}

/* ---- painted stacks */

struct stack {
    uint64_t words[STACK_WORDS];
} __attribute__((aligned(16)));

static struct stack of_setup, of_call, of_shown;

static void paint(struct stack *stack)
{
    size_t i;
    for (i = 0; i < STACK_WORDS; i++) {
        stack->words[i] = PAINT;
    }
}

/* The stack pointer is put to the stack's top for the call, and back. */
static void on(struct stack *stack, void (*function)(void))
{
    __asm__ volatile(
        "movq %%rsp, %%rbx\n\t"
        "movq %0, %%rsp\n\t"
        "callq *%1\n\t"
        "movq %%rbx, %%rsp"
        :
        : "r"(stack->words + STACK_WORDS), "r"(function)
        : "rbx", "rax", "rcx", "rdx", "rsi", "rdi", "r8", "r9", "r10", "r11", "xmm0", "xmm1", "xmm2", "xmm3", "xmm4", "xmm5", "xmm6", "xmm7", "xmm8",
          "xmm9", "xmm10", "xmm11", "xmm12", "xmm13", "xmm14", "xmm15", "memory", "cc");
}

static void print_depth(const char *name, const struct stack *stack)
{
    size_t i = 0;
    while (i < STACK_WORDS && stack->words[i] == PAINT) {
        i++;
    }
    printf("%s: %llu bytes\n", name, (unsigned long long)(8 * (STACK_WORDS - i)));
}

/* ---- a session's numbers; what is no session's ends it */

static FILE *file;

/* The next number, or 0 and the end. */
static uint64_t next(int *ended)
{
    uint64_t number = 0;
    int c = getc(file);
    while (c == '#' || c == ' ' || (c >= '\t' && c <= '\r')) {
        if (c == '#') {
            while (c != '\n' && c >= 0) {
                c = getc(file);
            }
        } else {
            c = getc(file);
        }
    }
    if (c < '0' || c > '9') {
        *ended = 1;
        return 0;
    }
    for (; c >= '0' && c <= '9'; c = getc(file)) {
        number = 10 * number + (uint64_t)(c - '0');
    }
    return number;
}

static unsigned long long calls;

static void play(void)
{
    size_t q;
    int ended = 0;
    places = next(&ended);
    queues = next(&ended);
    flavors = 0;
    for (q = 0; q < queues && !ended; q++) {
        uint64_t flavor = next(&ended);
        if (q < MOST_QUEUES) {
            flavors |= (flavor & 1) << q;
        }
    }
    cells = (places < MOST_PLACES ? places : MOST_PLACES) * HUB_QUEUES_PLACE_CELLS;
    on(&of_setup, do_setup);
    while (!ended) {
        thread = next(&ended);
        kind = next(&ended);
        source = next(&ended);
        operand = next(&ended);
        if (ended) {
            return;
        }
        on(&of_call, do_call);
        calls++;
        for (queue = 0; queue <= MOST_QUEUES; queue++) {
            on(&of_shown, do_shown);
        }
    }
}

int main(int count, char **names)
{
    int i;
    paint(&of_setup);
    paint(&of_call);
    paint(&of_shown);
    for (i = 1; i < count; i++) {
        file = fopen(names[i], "r");
        if (!file) {
            printf("stack: no file %s\n", names[i]);
            return 1;
        }
        play();
        fclose(file);
    }
    printf("%d sessions, %llu calls\n", count - 1, calls);
    print_depth("hub_queues_setup", &of_setup);
    print_depth("hub_queues_call", &of_call);
    print_depth("hub_queues_shown", &of_shown);
    return 0;
}
