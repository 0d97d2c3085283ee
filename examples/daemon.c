/* A small sensor daemon over the library: daemon TABLE.
 *
 * The table has four probes on one bus, each with a chain of four jobs: wake, read, filter, publish.
 * Probe 2 is unplugged, and its register still holds the four degrees of last year. The daemon steps
 * the table to its end and prints a line for each publish. Two things are to be seen: the reading of
 * the unplugged probe goes out as stale, and no publish runs before its read has ended. */
#include <stdio.h>
#include <stdlib.h>
#include <zubrelets.h>

/* Job 4 * probe + WAKE wakes a probe, and so on. */
enum { WAKE, READ, FILTER, PUBLISH, CHAIN };
enum { PROBES = 4, UNPLUGGED = 2 };

/* A table that was accepted, with its modified times. */
struct plan {
    uint32_t jobs[ZUB_JOBS_ROOM], arcs[ZUB_ARCS_ROOM], sections[ZUB_SECTIONS_ROOM];
    uint32_t times[ZUB_TIMES_ROOM];
    size_t jobs_len, arcs_len, sections_len, times_len;
};

/* Where a run stands. Each list has a number for each job. */
struct state {
    uint32_t tick;
    uint32_t executed[ZUB_MOST_JOBS], marks[ZUB_MOST_JOBS], finish[ZUB_MOST_JOBS];
    size_t len;
};

/* Ends the daemon, saying what went wrong. */
static void give_up(const char *what)
{
    fprintf(stderr, "daemon: %s\n", what);
    exit(1);
}

/* Ends the daemon where the library has refused. */
static void stop_if_refused(const char *call, uint32_t refusal, uint32_t place)
{
    if (refusal == ZUB_NO_REFUSAL)
        return;
    fprintf(stderr, "daemon: %s: refusal %u, place %u\n", call, (unsigned)refusal, (unsigned)place);
    exit(1);
}

/* Reads the table of a file. */
static void read_table(const char *path, struct plan *p)
{
    /* One byte more than the longest text: it decides what a longer one is refused for. */
    static uint8_t text[ZUB_TEXT_ROOM + 1];
    FILE *file = fopen(path, "rb");
    if (file == NULL)
        give_up("the table can't be opened");
    size_t length = fread(text, 1, sizeof text, file);
    bool failed = ferror(file) != 0;
    fclose(file);
    if (failed)
        give_up("the table can't be read");

    zub_counts read = zub_read(text, length, p->jobs, ZUB_JOBS_ROOM, p->arcs, ZUB_ARCS_ROOM,
                               p->sections, ZUB_SECTIONS_ROOM);
    stop_if_refused("zub_read", read.refusal, read.place);
    if (read.jobs != PROBES * CHAIN)
        give_up("not a table of four probes");
    p->jobs_len = ZUB_JOB_WIDTH * read.jobs;
    p->arcs_len = ZUB_ARC_WIDTH * read.arcs;
    p->sections_len = ZUB_SECTION_WIDTH * read.sections;
}

/* Checks the table, gives it its modified times, and says whether the density test lets it through. */
static void make_plan(struct plan *p)
{
    zub_count planned = zub_plan(p->jobs, p->jobs_len, p->arcs, p->arcs_len,
                                 p->sections, p->sections_len, p->times, ZUB_TIMES_ROOM);
    stop_if_refused("zub_plan", planned.refusal, planned.place);
    p->times_len = planned.times;

    zub_verdict dense = zub_density(p->jobs, p->jobs_len, p->arcs, p->arcs_len,
                                    p->sections, p->sections_len, p->times, p->times_len);
    stop_if_refused("zub_density", dense.refusal, dense.place);
    if (dense.yes)
        printf("density: yes\n");
    else
        printf("density: no, at place %u\n", (unsigned)dense.failing);
}

/* The state in which a run starts. */
static void start(const struct plan *p, struct state *s)
{
    zub_tick started = zub_start(p->jobs, p->jobs_len, p->arcs, p->arcs_len,
                                 p->sections, p->sections_len, p->times, p->times_len,
                                 s->executed, ZUB_MOST_JOBS, s->marks, ZUB_MOST_JOBS,
                                 s->finish, ZUB_MOST_JOBS);
    stop_if_refused("zub_start", started.refusal, started.place);
    s->tick = started.tick;
    s->len = p->jobs_len / ZUB_JOB_WIDTH;
}

/* One tick with its report. That every job has finished is left to the caller. */
static zub_stepped step(const struct plan *p, struct state *s, bool silent)
{
    zub_stepped done = zub_step(p->jobs, p->jobs_len, p->arcs, p->arcs_len,
                                p->sections, p->sections_len, p->times, p->times_len,
                                s->tick, s->executed, s->len, s->marks, s->len,
                                s->finish, s->len, silent);
    if (done.refusal != ZUB_REFUSED_FINISHED)
        stop_if_refused("zub_step", done.refusal, done.place);
    s->tick = done.tick;
    return done;
}

/* What each probe's register holds, in degrees, and what a probe that answers would put there. */
static int registers[PROBES] = { 9, 9, 4, 9 };
static const int measured[PROBES] = { 3, 5, 21, 4 };

/* Does a job's work for a tick, and tells whether its probe was silent. */
static bool work(uint32_t job)
{
    uint32_t probe = job / CHAIN;
    if (job % CHAIN != READ)
        return false;
    if (probe == UNPLUGGED)
        return true;
    registers[probe] = measured[probe];
    return false;
}

/* Prints the line of a publish that has just ended. */
static void show_publish(const struct plan *p, const struct state *s, uint32_t job)
{
    uint32_t probe = job / CHAIN, read = CHAIN * probe + READ;
    zub_late late = zub_lateness(p->jobs, p->jobs_len, p->arcs, p->arcs_len,
                                 p->sections, p->sections_len, p->times, p->times_len,
                                 s->tick, s->executed, s->len, s->marks, s->len,
                                 s->finish, s->len, job);
    stop_if_refused("zub_lateness", late.refusal, late.place);
    if (s->finish[read] == 0)
        give_up("a publish ran before its read");
    printf("tick %u: probe %u publishes %d degrees, read by tick %u, %s, %d ticks %s\n",
           (unsigned)s->tick, (unsigned)probe, registers[probe], (unsigned)s->finish[read],
           s->marks[job] == ZUB_MARK_FRESH ? "fresh" : "STALE",
           abs((int)late.lateness), late.lateness > 0 ? "late" : "early");
}

int main(int count, char **words)
{
    static struct plan p;
    static struct state now, ahead;
    if (count != 2)
        give_up("usage: daemon TABLE");
    read_table(words[1], &p);
    make_plan(&p);
    start(&p, &now);
    for (;;) {
        /* Who runs does not depend on the report, so a step on a copy tells whom to ask for one. */
        ahead = now;
        zub_stepped next = step(&p, &ahead, false);
        if (next.refusal == ZUB_REFUSED_FINISHED)
            break;
        bool silent = next.ran && work(next.job);
        step(&p, &now, silent);
        if (next.ran && next.job % CHAIN == PUBLISH && now.finish[next.job] == now.tick)
            show_publish(&p, &now, next.job);
    }
    printf("tick %u: all jobs have finished\n", (unsigned)now.tick);
    return 0;
}
