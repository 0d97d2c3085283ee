/* How much stack each entry takes, measured on the compiled code: the call is made on a stack of its own
 * that was painted before, and whatever is no longer painted afterwards was used. The figure includes
 * what a caller pays: the arguments on the stack, the return address, and a small frame of its own.
 *
 * The plan is at all its bounds: 64 jobs, 256 arcs, 128 sections. zub_step is called from a state for
 * each way that a tick can go and in every tick of a run, and must stay below 2,048 bytes. That the mark
 * can rise above this is seen at zub_answer, whose page alone has 5,729 bytes; with one page and the lists
 * of all it calls, it must stay below 18,432. */
#define _XOPEN_SOURCE 600
#include <stdio.h>
#include <stdlib.h>
#include <string.h>
#include <ucontext.h>
#include <zubrelets.h>

enum { LIMIT = 2048, ANSWER_LIMIT = 18432, STACK = 65536 };
enum { JOBS = ZUB_MOST_JOBS, LAST = JOBS - 1, COST = 4 };

static uint32_t jobs[ZUB_JOBS_ROOM], arcs[ZUB_ARCS_ROOM], sections[ZUB_SECTIONS_ROOM];
static uint32_t times[ZUB_TIMES_ROOM];
static uint32_t tick, executed[JOBS], marks[JOBS], finish[JOBS];
static bool silent;
static zub_stepped stepped;
static zub_verdict verdict;
static uint8_t text[ZUB_TEXT_ROOM], out[ZUB_TEXT_ROOM];
static size_t text_len;

/* Ends the measuring, saying why. */
static void fail(const char *why)
{
    fflush(stdout);
    fprintf(stderr, "stack: %s\n", why);
    exit(1);
}

/* Jobs come in the order of their numbers, job 0 due long before the others and the last released late.
 * Jobs 0 to 31 come before jobs 32 to 63, eight before each. Each job has two sections, one within the
 * other: job j owns resource j % 16 in its first three ticks and resource (j + 8) % 16 in the second of
 * them. So job 0 sets the ceilings of resources 0 and 8, and no other. */
static void make_table(void)
{
    for (uint32_t j = 0; j < JOBS; j++) {
        const uint32_t job[] = { j == LAST ? 300 : 0, COST, j == 0 ? 1000 : 2000 };
        const uint32_t both[] = { j, j % 16, 0, 3, j, (j + 8) % 16, 1, 2 };
        memcpy(jobs + ZUB_JOB_WIDTH * j, job, sizeof job);
        memcpy(sections + 2 * ZUB_SECTION_WIDTH * j, both, sizeof both);
    }
    for (uint32_t a = 0; a < ZUB_MOST_ARCS; a++) {
        const uint32_t arc[] = { a % 8 * 4 + a / 8 % 4, 32 + a / 8 };
        memcpy(arcs + ZUB_ARC_WIDTH * a, arc, sizeof arc);
    }
    zub_length written = zub_write(jobs, ZUB_JOBS_ROOM, arcs, ZUB_ARCS_ROOM, sections,
                                   ZUB_SECTIONS_ROOM, text, sizeof text);
    zub_count planned = zub_plan(jobs, ZUB_JOBS_ROOM, arcs, ZUB_ARCS_ROOM, sections,
                                 ZUB_SECTIONS_ROOM, times, ZUB_TIMES_ROOM);
    if (written.refusal != ZUB_NO_REFUSAL || planned.refusal != ZUB_NO_REFUSAL)
        fail("the table is refused");
    text_len = written.bytes;
}

/* The calls that are measured. */
static void call_read(void)
{
    zub_read(text, text_len, jobs, ZUB_JOBS_ROOM, arcs, ZUB_ARCS_ROOM, sections, ZUB_SECTIONS_ROOM);
}

static void call_write(void)
{
    zub_write(jobs, ZUB_JOBS_ROOM, arcs, ZUB_ARCS_ROOM, sections, ZUB_SECTIONS_ROOM, out, sizeof out);
}

static void call_plan(void)
{
    zub_plan(jobs, ZUB_JOBS_ROOM, arcs, ZUB_ARCS_ROOM, sections, ZUB_SECTIONS_ROOM,
             times, ZUB_TIMES_ROOM);
}

static void call_density(void)
{
    verdict = zub_density(jobs, ZUB_JOBS_ROOM, arcs, ZUB_ARCS_ROOM, sections, ZUB_SECTIONS_ROOM,
                          times, ZUB_TIMES_ROOM);
}

static void call_start(void)
{
    tick = zub_start(jobs, ZUB_JOBS_ROOM, arcs, ZUB_ARCS_ROOM, sections, ZUB_SECTIONS_ROOM,
                     times, ZUB_TIMES_ROOM, executed, JOBS, marks, JOBS, finish, JOBS).tick;
}

static void call_step(void)
{
    stepped = zub_step(jobs, ZUB_JOBS_ROOM, arcs, ZUB_ARCS_ROOM, sections, ZUB_SECTIONS_ROOM,
                       times, ZUB_TIMES_ROOM, tick, executed, JOBS, marks, JOBS, finish, JOBS, silent);
}

static void call_run(void)
{
    tick = zub_run(jobs, ZUB_JOBS_ROOM, arcs, ZUB_ARCS_ROOM, sections, ZUB_SECTIONS_ROOM,
                   times, ZUB_TIMES_ROOM, executed, JOBS, marks, JOBS, finish, JOBS).tick;
}

static void call_lateness(void)
{
    zub_lateness(jobs, ZUB_JOBS_ROOM, arcs, ZUB_ARCS_ROOM, sections, ZUB_SECTIONS_ROOM,
                 times, ZUB_TIMES_ROOM, tick, executed, JOBS, marks, JOBS, finish, JOBS, LAST);
}

static void call_answer(void)
{
    zub_answer(text, text_len, out, sizeof out);
}

/* The bytes of a painted stack that a call has written to, down to the lowest. */
static size_t mark_of(void (*call)(void), int paint)
{
    static unsigned char stack[STACK];
    static ucontext_t here, there;
    memset(stack, paint, sizeof stack);
    if (getcontext(&there) != 0)
        fail("no context");
    there.uc_stack.ss_sp = stack;
    there.uc_stack.ss_size = sizeof stack;
    there.uc_link = &here;
    makecontext(&there, call, 0);
    if (swapcontext(&here, &there) != 0)
        fail("no switch of stacks");
    size_t low = 0;
    while (low < sizeof stack && stack[low] == paint)
        low++;
    if (low == 0)
        fail("the painted stack is too small");
    return sizeof stack - low;
}

/* The larger mark by two paints, since one of them might be just what is written. `before` makes the state
 * each time. The first call is on the usual stack: the loader may bind memcpy there and then. */
static size_t stack_of(void (*before)(void), void (*call)(void))
{
    before();
    call();
    before();
    size_t a = mark_of(call, 0xa5);
    before();
    size_t b = mark_of(call, 0x5a);
    return a < b ? b : a;
}

/* The state of a plan's start; what follows changes it. */
static void at_start(void)
{
    silent = false;
    call_start();
}

static void first_has_started(void)
{
    at_start();
    executed[0] = 1;
}

static void held_lets_it_start(void)
{
    at_start();
    executed[9] = 1;
}

static void held_keeps_it_out(void)
{
    at_start();
    executed[8] = 1;
}

static void all_others_hold(void)
{
    at_start();
    for (int j = 1; j < LAST; j++)
        executed[j] = 2;
}

static void all_but_the_last_finished(void)
{
    at_start();
    for (int j = 0; j < LAST; j++) {
        executed[j] = COST;
        marks[j] = ZUB_MARK_FRESH;
        finish[j] = COST * (j + 1);
    }
}

static void last_ends_fresh(void)
{
    all_but_the_last_finished();
    executed[LAST] = COST - 1;
    tick = 400;
}

static void last_ends_silent(void)
{
    last_ends_fresh();
    silent = true;
}

static void last_ends_after_stale(void)
{
    last_ends_fresh();
    marks[arcs[ZUB_ARCS_ROOM - 2]] = ZUB_MARK_STALE;
}

static void all_finished(void)
{
    at_start();
    call_run();
}

static void odd_mark(void)
{
    at_start();
    marks[LAST] = 3;
}

/* The states, and what a step from each must have done: the refusal, who ran, the last job's mark. */
static const struct {
    const char *name;
    void (*before)(void);
    uint32_t refusal, ran, job, mark;
} states[] = {
    { "rule 1, idle", all_but_the_last_finished, 0, 0, 0, ZUB_MARK_NONE },
    { "rule 2, started", first_has_started, 0, 1, 0, ZUB_MARK_NONE },
    { "rule 3, nothing held", at_start, 0, 1, 0, ZUB_MARK_NONE },
    { "rule 3, held, may start", held_lets_it_start, 0, 1, 0, ZUB_MARK_NONE },
    { "rule 4, may not start", held_keeps_it_out, 0, 1, 8, ZUB_MARK_NONE },
    { "rule 4, all others hold", all_others_hold, 0, 1, 1, ZUB_MARK_NONE },
    { "finish, fresh", last_ends_fresh, 0, 1, LAST, ZUB_MARK_FRESH },
    { "finish, silent", last_ends_silent, 0, 1, LAST, ZUB_MARK_STALE },
    { "finish, one before is stale", last_ends_after_stale, 0, 1, LAST, ZUB_MARK_STALE },
    { "refusal 13", all_finished, ZUB_REFUSED_FINISHED, 0, 0, ZUB_MARK_FRESH },
    { "refusal 12", odd_mark, ZUB_REFUSED_BOUNDS, 0, 0, 3 },
};

/* The most that a step takes from the states above. */
static size_t most_of_states(void)
{
    size_t most = 0;
    for (size_t i = 0; i < sizeof states / sizeof states[0]; i++) {
        size_t used = stack_of(states[i].before, call_step);
        printf("stack: zub_step, %s: %zu bytes\n", states[i].name, used);
        if (stepped.refusal != states[i].refusal || stepped.ran != states[i].ran
            || stepped.job != states[i].job || marks[LAST] != states[i].mark)
            fail("the step did something else");
        if (most < used)
            most = used;
    }
    return most;
}

/* The most that a step takes in any tick of a run, every third report silent. */
static size_t most_of_run(void)
{
    size_t most = 0;
    at_start();
    for (;;) {
        silent = tick % 3 == 0;
        size_t used = mark_of(call_step, tick % 2 ? 0xa5 : 0x5a);
        if (most < used)
            most = used;
        if (stepped.refusal == ZUB_REFUSED_FINISHED)
            break;
        if (stepped.refusal != ZUB_NO_REFUSAL)
            fail("a step of the run is refused");
        tick = stepped.tick;
    }
    printf("stack: zub_step, a run of %u ticks: %zu bytes\n", (unsigned)tick, most);
    return most;
}

/* The other entries, for whoever sizes a task's stack. */
static void show_others(void)
{
    printf("stack: zub_read: %zu bytes\n", stack_of(at_start, call_read));
    printf("stack: zub_write: %zu bytes\n", stack_of(at_start, call_write));
    printf("stack: zub_plan: %zu bytes\n", stack_of(at_start, call_plan));
    printf("stack: zub_density: %zu bytes\n", stack_of(at_start, call_density));
    if (!verdict.yes)
        fail("the density test did not go through all places");
    printf("stack: zub_start: %zu bytes\n", stack_of(at_start, call_start));
    printf("stack: zub_run: %zu bytes\n", stack_of(at_start, call_run));
    printf("stack: zub_lateness: %zu bytes\n", stack_of(all_finished, call_lateness));
}

int main(void)
{
    make_table();
    size_t by_state = most_of_states(), by_run = most_of_run();
    size_t step = by_state < by_run ? by_run : by_state;
    show_others();
    size_t answer = stack_of(at_start, call_answer);
    printf("stack: zub_answer: %zu bytes\n", answer);
    if (answer < ZUB_ANSWER_ROOM)
        fail("the mark of zub_answer is below its page, so the measure is wrong");
    if (answer >= ANSWER_LIMIT)
        fail("zub_answer takes 18,432 bytes or more");
    if (step >= LIMIT)
        fail("zub_step takes 2,048 bytes or more");
    printf("stack: a step takes %zu bytes, less than %d\n", step, LIMIT);
    return 0;
}
