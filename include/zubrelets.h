/* Zubrelets: a job dispatcher for a sensor daemon, proved. The C interface of libzubrelets_c.a.
 *
 * A table is three flat lists of 32-bit numbers: release, cost, deadline for each job; before, after
 * for each arc; job, resource, from, to for each section. A plan is a table that was accepted and its
 * modified times: modified release, modified deadline for each job. A state is a tick and three
 * lists with a number for each job: executed ticks, marks, finish (0 until the job ends).
 *
 * What holds for every function:
 *
 * - A list is a pointer and a length. The length counts elements, not bytes.
 * - A pointer is valid for its whole length and aligned for its elements. Pass a valid pointer with a
 *   length of 0 too, not NULL.
 * - A list that is not const is lent: the function may write to it. A lent list overlaps no other list
 *   of the call. Lists that are only read may overlap each other.
 * - Any content and any length is taken. The function ends, and either does its work or refuses.
 * - An answer starts with the refusal's number, ZUB_NO_REFUSAL for none, and its place. The values
 *   after them are 0 where it refuses, but for a step's tick, which is the one handed in.
 * - A refusal writes nothing. Success writes the front of each lent list, as much as is needed, and
 *   the rest keeps its content.
 * - Where several refusals apply, the one named first is given.
 * - Nothing is kept between calls and nothing is allocated. Threads may call at once on lists of
 *   their own. Of the C library only memcpy and memset are used.
 */
#ifndef ZUBRELETS_H
#define ZUBRELETS_H

#include <stdbool.h>
#include <stddef.h>
#include <stdint.h>

#ifdef __cplusplus
extern "C" {
#endif

/* Bounds. A table has 1 to ZUB_MOST_JOBS jobs, numbered from 0. */
#define ZUB_MOST_JOBS 64
#define ZUB_MOST_ARCS 256
#define ZUB_MOST_SECTIONS 128
#define ZUB_LATEST 1000000     /* the latest release and deadline */
#define ZUB_MOST_COST 100000   /* a cost is 1 to this */
#define ZUB_RESOURCES 16       /* resources are numbered from 0, one unit each */
#define ZUB_LAST_TICK 10000000 /* the last tick of a state; no step is taken from it */

/* How many numbers a row has. */
#define ZUB_JOB_WIDTH 3     /* release, cost, deadline */
#define ZUB_ARC_WIDTH 2     /* before, after */
#define ZUB_SECTION_WIDTH 4 /* job, resource, from, to */
#define ZUB_TIMES_WIDTH 2   /* modified release, modified deadline, of a job */

/* Lists of these lengths hold what any table needs. A state's lists need ZUB_MOST_JOBS each. */
#define ZUB_JOBS_ROOM 192
#define ZUB_ARCS_ROOM 512
#define ZUB_SECTIONS_ROOM 512
#define ZUB_TIMES_ROOM 128
/* The longest text of a table. Of a longer text one byte more than this decides the refusal. */
#define ZUB_TEXT_ROOM 20830
/* The longest answer of zub_answer. */
#define ZUB_ANSWER_ROOM 5729

/* Why nothing was done, and what the place is then; 0 where it is not said. */
enum zub_refusal {
    ZUB_NO_REFUSAL = 0,
    ZUB_REFUSED_TEXT = 1,        /* the text breaks its rules; the first wrong line, from 1 */
    ZUB_REFUSED_JOBS = 2,        /* not 1 to 64 jobs, or a length that is no multiple of 3 */
    ZUB_REFUSED_ARCS = 3,        /* over 256 arcs, or an odd length */
    ZUB_REFUSED_SECTIONS = 4,    /* over 128 sections, or a length that is no multiple of 4 */
    ZUB_REFUSED_JOB_OUT = 5,     /* a release, cost or deadline out of bounds; the lowest such job */
    ZUB_REFUSED_ARC_OUT = 6,     /* an arc names a job not in the table; the lowest such arc */
    ZUB_REFUSED_SECTION_OUT = 7, /* a section's job not in the table, resource over 15, from not
                                    below to, or to above the job's cost; the lowest such section */
    ZUB_REFUSED_CLASH = 8,       /* a section clashes with a lower-numbered one of the same job;
                                    the lowest such section */
    ZUB_REFUSED_CYCLE = 9,       /* the arcs hold a cycle; the lowest job on any cycle */
    ZUB_REFUSED_WINDOW = 10,     /* modified deadline less modified release is below cost; the
                                    lowest such job */
    ZUB_REFUSED_ROOM = 11,       /* a lent list is too short for the result */
    ZUB_REFUSED_BOUNDS = 12,     /* a plan or state handed in leaves its bounds */
    ZUB_REFUSED_FINISHED = 13,   /* a step is asked when every job has finished */
    ZUB_REFUSED_MULTIPLE = 14    /* the density test's common multiple exceeds 1,000,000,000 */
};

/* The marks of a state: none until the job ends; stale if it, or a job it depends on, ended silent. */
enum zub_mark {
    ZUB_MARK_NONE = 0,
    ZUB_MARK_FRESH = 1,
    ZUB_MARK_STALE = 2
};

/* How many jobs, arcs and sections were read. */
typedef struct zub_counts {
    uint32_t refusal;
    uint32_t place;
    uint32_t jobs;
    uint32_t arcs;
    uint32_t sections;
} zub_counts;

/* How many bytes were written. */
typedef struct zub_length {
    uint32_t refusal;
    uint32_t place;
    size_t bytes;
} zub_length;

/* How many numbers were written to the times: ZUB_TIMES_WIDTH for each job. */
typedef struct zub_count {
    uint32_t refusal;
    uint32_t place;
    uint32_t times;
} zub_count;

/* The tick of the state that was written. */
typedef struct zub_tick {
    uint32_t refusal;
    uint32_t place;
    uint32_t tick;
} zub_tick;

/* The tick after the step, or with a refusal the one handed in; ran is 1 where a job ran and 0 where
 * the tick was idle; job is which. */
typedef struct zub_stepped {
    uint32_t refusal;
    uint32_t place;
    uint32_t tick;
    uint32_t ran;
    uint32_t job;
} zub_stepped;

/* finished is 1 where the job has finished; lateness is its finish less its given deadline, below 0
 * where it was early, and 0 where it has not finished. */
typedef struct zub_late {
    uint32_t refusal;
    uint32_t place;
    uint32_t finished;
    int32_t lateness;
} zub_late;

/* yes is 1 for yes; with a no, failing is the lowest failing place, from 1. */
typedef struct zub_verdict {
    uint32_t refusal;
    uint32_t place;
    uint32_t yes;
    uint32_t failing;
} zub_verdict;

/* Reads a table's text into the three lists of a table.
 *
 * Refusals: the text is judged line by line, and the first wrong line is 1, or 2, 3 or 4 where it is
 * a bad count; the place is the line, from 1. After the whole text 11, where a list is too short.
 * Values other than the three counts are not judged here: zub_plan judges them.
 *
 * The table is then the front of each list: ZUB_JOB_WIDTH * jobs, ZUB_ARC_WIDTH * arcs and
 * ZUB_SECTION_WIDTH * sections numbers, which are the lengths to hand on. */
zub_counts zub_read(const uint8_t *text, size_t text_len,
                    uint32_t *jobs, size_t jobs_len,
                    uint32_t *arcs, size_t arcs_len,
                    uint32_t *sections, size_t sections_len);

/* Writes the text of a table to the front of out. A text that was read comes out byte for byte.
 *
 * Refusals: 2, 3, 4, all at place 0, then 11. Values are not judged. */
zub_length zub_write(const uint32_t *jobs, size_t jobs_len,
                     const uint32_t *arcs, size_t arcs_len,
                     const uint32_t *sections, size_t sections_len,
                     uint8_t *out, size_t out_len);

/* Checks a table and writes the modified times of its jobs to the front of times. The table and that
 * front, as many numbers as the answer says, are a plan.
 *
 * Refusals: 2 to 10 in that order, then 11; 2, 3 and 4 at place 0. */
zub_count zub_plan(const uint32_t *jobs, size_t jobs_len,
                   const uint32_t *arcs, size_t arcs_len,
                   const uint32_t *sections, size_t sections_len,
                   uint32_t *times, size_t times_len);

/* Tests the density of a plan. Writes nothing.
 *
 * Refusals: 12, then 14, with which the test has no verdict. */
zub_verdict zub_density(const uint32_t *jobs, size_t jobs_len,
                        const uint32_t *arcs, size_t arcs_len,
                        const uint32_t *sections, size_t sections_len,
                        const uint32_t *times, size_t times_len);

/* Writes the state at tick 0 of a plan: a 0 for each job to the front of each of the three lists. The
 * answer's tick is 0.
 *
 * Refusals: 12, then 11, where a list is shorter than the plan has jobs. */
zub_tick zub_start(const uint32_t *jobs, size_t jobs_len,
                   const uint32_t *arcs, size_t arcs_len,
                   const uint32_t *sections, size_t sections_len,
                   const uint32_t *times, size_t times_len,
                   uint32_t *executed, size_t executed_len,
                   uint32_t *marks, size_t marks_len,
                   uint32_t *finish, size_t finish_len);

/* One tick of a plan from a state, which becomes the state after it. silent is the report that comes
 * with the tick. It counts only where the tick finishes its job: the job is then marked stale if the
 * report is silent or a job directly before it is stale, else fresh. Who runs does not depend on it.
 *
 * The state's lists are exactly as long as the plan has jobs. A call takes less than 2,048 bytes of
 * stack.
 *
 * Refusals: 12, also where the tick is ZUB_LAST_TICK; then 13. */
zub_stepped zub_step(const uint32_t *jobs, size_t jobs_len,
                     const uint32_t *arcs, size_t arcs_len,
                     const uint32_t *sections, size_t sections_len,
                     const uint32_t *times, size_t times_len,
                     uint32_t tick,
                     uint32_t *executed, size_t executed_len,
                     uint32_t *marks, size_t marks_len,
                     uint32_t *finish, size_t finish_len,
                     bool silent);

/* Runs a plan from tick 0 to its end with every report answered, and writes the end state to the
 * front of the three lists. What they held before plays no part.
 *
 * Refusals: 12, then 11, where a list is shorter than the plan has jobs. */
zub_tick zub_run(const uint32_t *jobs, size_t jobs_len,
                 const uint32_t *arcs, size_t arcs_len,
                 const uint32_t *sections, size_t sections_len,
                 const uint32_t *times, size_t times_len,
                 uint32_t *executed, size_t executed_len,
                 uint32_t *marks, size_t marks_len,
                 uint32_t *finish, size_t finish_len);

/* The lateness of a job of a state. Writes nothing. The state's lists are exactly as long as the plan
 * has jobs.
 *
 * Refusals: 12, also where the plan has no such job. */
zub_late zub_lateness(const uint32_t *jobs, size_t jobs_len,
                      const uint32_t *arcs, size_t arcs_len,
                      const uint32_t *sections, size_t sections_len,
                      const uint32_t *times, size_t times_len,
                      uint32_t tick,
                      const uint32_t *executed, size_t executed_len,
                      const uint32_t *marks, size_t marks_len,
                      const uint32_t *finish, size_t finish_len,
                      uint32_t job);

/* Writes what the program prints for a table's text to the front of out: its run, every report
 * answered, or the two lines of a refusal. It keeps its lists on the stack, some 15 KiB.
 *
 * Refusals: 11. A refusal of the text or the table is no refusal here: its lines are the answer. */
zub_length zub_answer(const uint8_t *text, size_t text_len, uint8_t *out, size_t out_len);

#ifdef __cplusplus
}
#endif

#endif
