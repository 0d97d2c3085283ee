/* Each function of zubrelets.h, called from C on document 01's first example: every field of every answer
 * is looked at, so the header's structs and arguments are those of the archive.
 *
 * entries TABLE OUT, where TABLE is tables/p1.table and OUT what the program prints for it. */
#include <stdio.h>
#include <stdlib.h>
#include <string.h>
#include <zubrelets.h>

/* Ends the test unless the fact holds. */
#define CHECK(fact) check((fact), #fact, __LINE__)

enum { UNTOUCHED = 77, N = 3 };

static uint8_t text[ZUB_TEXT_ROOM], expected[ZUB_ANSWER_ROOM], out[ZUB_TEXT_ROOM];
static size_t text_len, expected_len;
static uint32_t jobs[ZUB_JOBS_ROOM], arcs[ZUB_ARCS_ROOM], sections[ZUB_SECTIONS_ROOM];
static uint32_t times[ZUB_TIMES_ROOM];
static uint32_t executed[N], marks[N], finish[N];

static void check(bool holds, const char *fact, int line)
{
    if (holds)
        return;
    fprintf(stderr, "entries: line %d: not so: %s\n", line, fact);
    exit(1);
}

/* Reads a file whole. */
static size_t load(const char *path, uint8_t *bytes, size_t room)
{
    FILE *file = fopen(path, "rb");
    CHECK(file != NULL);
    size_t length = fread(bytes, 1, room, file);
    CHECK(ferror(file) == 0 && length > 0);
    fclose(file);
    return length;
}

/* Fills a list with a number that nothing writes. */
static void fill(uint32_t *list, size_t length)
{
    for (size_t i = 0; i < length; i++)
        list[i] = UNTOUCHED;
}

static bool untouched(const uint32_t *list, size_t length)
{
    for (size_t i = 0; i < length; i++)
        if (list[i] != UNTOUCHED)
            return false;
    return true;
}

static bool same(const uint32_t *list, const uint32_t *other, size_t length)
{
    return memcmp(list, other, length * sizeof *list) == 0;
}

static void reads_and_writes(void)
{
    static const uint32_t p1_jobs[] = { 0, 4, 20, 2, 2, 10, 0, 1, 12 };
    static const uint32_t p1_arcs[] = { 1, 2 };
    static const uint32_t p1_sections[] = { 0, 0, 1, 4, 1, 0, 0, 1 };
    fill(jobs, ZUB_JOBS_ROOM);
    fill(arcs, ZUB_ARCS_ROOM);
    fill(sections, ZUB_SECTIONS_ROOM);

    zub_counts bad = zub_read(text, text_len - 1, jobs, 9, arcs, 2, sections, 8);
    CHECK(bad.refusal == ZUB_REFUSED_TEXT && bad.place == 22);
    CHECK(bad.jobs == 0 && bad.arcs == 0 && bad.sections == 0);
    zub_counts tight = zub_read(text, text_len, jobs, 9, arcs, 2, sections, 7);
    CHECK(tight.refusal == ZUB_REFUSED_ROOM && tight.place == 0 && tight.jobs == 0);
    CHECK(untouched(jobs, 9) && untouched(arcs, 2) && untouched(sections, 8));

    zub_counts read = zub_read(text, text_len, jobs, ZUB_JOBS_ROOM, arcs, ZUB_ARCS_ROOM,
                               sections, ZUB_SECTIONS_ROOM);
    CHECK(read.refusal == ZUB_NO_REFUSAL && read.place == 0);
    CHECK(read.jobs == 3 && read.arcs == 1 && read.sections == 2);
    CHECK(same(jobs, p1_jobs, 9) && same(arcs, p1_arcs, 2) && same(sections, p1_sections, 8));
    CHECK(untouched(jobs + 9, ZUB_JOBS_ROOM - 9) && untouched(sections + 8, ZUB_SECTIONS_ROOM - 8));

    zub_length written = zub_write(jobs, 9, arcs, 2, sections, 8, out, sizeof out);
    CHECK(written.refusal == ZUB_NO_REFUSAL && written.place == 0 && written.bytes == text_len);
    CHECK(memcmp(out, text, text_len) == 0);
    zub_length odd = zub_write(jobs, 9, arcs, 1, sections, 8, out, sizeof out);
    CHECK(odd.refusal == ZUB_REFUSED_ARCS && odd.place == 0 && odd.bytes == 0);
}

static void plans(void)
{
    static const uint32_t p1_times[] = { 0, 20, 2, 10, 2, 12 };
    static const uint32_t ring[] = { 1, 2, 2, 1 };
    fill(times, ZUB_TIMES_ROOM);
    zub_count cycle = zub_plan(jobs, 9, ring, 4, sections, 8, times, ZUB_TIMES_ROOM);
    CHECK(cycle.refusal == ZUB_REFUSED_CYCLE && cycle.place == 1 && cycle.times == 0);
    CHECK(untouched(times, ZUB_TIMES_ROOM));

    zub_count planned = zub_plan(jobs, 9, arcs, 2, sections, 8, times, ZUB_TIMES_ROOM);
    CHECK(planned.refusal == ZUB_NO_REFUSAL && planned.place == 0 && planned.times == 6);
    CHECK(same(times, p1_times, 6) && untouched(times + 6, ZUB_TIMES_ROOM - 6));

    zub_verdict dense = zub_density(jobs, 9, arcs, 2, sections, 8, times, 6);
    CHECK(dense.refusal == ZUB_NO_REFUSAL && dense.place == 0 && dense.yes == 1 && dense.failing == 0);
    zub_verdict out_of_bounds = zub_density(jobs, 9, arcs, 2, sections, 8, times, 8);
    CHECK(out_of_bounds.refusal == ZUB_REFUSED_BOUNDS && out_of_bounds.yes == 0);

    /* P10: the second place fails. */
    static const uint32_t two[] = { 0, 3, 3, 0, 3, 5 }, two_times[] = { 0, 3, 0, 5 };
    zub_verdict thin = zub_density(two, 6, arcs, 0, sections, 0, two_times, 4);
    CHECK(thin.refusal == ZUB_NO_REFUSAL && thin.yes == 0 && thin.failing == 2);
}

/* P1's ticks, the one at tick 5 silent as in P3. */
static void steps(void)
{
    static const uint32_t runs[] = { 0, 0, 0, 0, 1, 1, 2 }, ends[] = { 4, 6, 7 };
    static const uint32_t marked[] = { ZUB_MARK_FRESH, ZUB_MARK_STALE, ZUB_MARK_STALE };
    zub_tick started = zub_start(jobs, 9, arcs, 2, sections, 8, times, 6,
                                 executed, N, marks, N, finish, N);
    CHECK(started.refusal == ZUB_NO_REFUSAL && started.place == 0 && started.tick == 0);
    for (uint32_t tick = 0; tick < 7; tick++) {
        zub_stepped done = zub_step(jobs, 9, arcs, 2, sections, 8, times, 6, tick,
                                    executed, N, marks, N, finish, N, tick == 5);
        CHECK(done.refusal == ZUB_NO_REFUSAL && done.place == 0 && done.tick == tick + 1);
        CHECK(done.ran == 1 && done.job == runs[tick]);
    }
    CHECK(same(marks, marked, N) && same(finish, ends, N));

    zub_stepped over = zub_step(jobs, 9, arcs, 2, sections, 8, times, 6, 7,
                                executed, N, marks, N, finish, N, true);
    CHECK(over.refusal == ZUB_REFUSED_FINISHED && over.place == 0 && over.tick == 7);
    CHECK(over.ran == 0 && over.job == 0 && same(marks, marked, N) && same(finish, ends, N));

    zub_late early = zub_lateness(jobs, 9, arcs, 2, sections, 8, times, 6, 7,
                                  executed, N, marks, N, finish, N, 0);
    CHECK(early.refusal == ZUB_NO_REFUSAL && early.place == 0);
    CHECK(early.finished == 1 && early.lateness == -16);
    zub_late nobody = zub_lateness(jobs, 9, arcs, 2, sections, 8, times, 6, 7,
                                   executed, N, marks, N, finish, N, N);
    CHECK(nobody.refusal == ZUB_REFUSED_BOUNDS && nobody.finished == 0 && nobody.lateness == 0);
}

static void runs_and_answers(void)
{
    static const uint32_t ends[] = { 4, 6, 7 }, fresh[] = { 1, 1, 1 };
    zub_tick short_of_room = zub_run(jobs, 9, arcs, 2, sections, 8, times, 6,
                                     executed, N, marks, N, finish, N - 1);
    CHECK(short_of_room.refusal == ZUB_REFUSED_ROOM && short_of_room.tick == 0);
    zub_tick ended = zub_run(jobs, 9, arcs, 2, sections, 8, times, 6,
                             executed, N, marks, N, finish, N);
    CHECK(ended.refusal == ZUB_NO_REFUSAL && ended.place == 0 && ended.tick == 7);
    CHECK(same(marks, fresh, N) && same(finish, ends, N));

    zub_length tight = zub_answer(text, text_len, out, expected_len - 1);
    CHECK(tight.refusal == ZUB_REFUSED_ROOM && tight.bytes == 0 && memcmp(out, text, text_len) == 0);
    zub_length printed = zub_answer(text, text_len, out, ZUB_ANSWER_ROOM);
    CHECK(printed.refusal == ZUB_NO_REFUSAL && printed.place == 0 && printed.bytes == expected_len);
    CHECK(memcmp(out, expected, expected_len) == 0);
}

int main(int count, char **words)
{
    CHECK(count == 3);
    text_len = load(words[1], text, sizeof text);
    expected_len = load(words[2], expected, sizeof expected);
    CHECK(ZUB_JOBS_ROOM == ZUB_JOB_WIDTH * ZUB_MOST_JOBS);
    CHECK(ZUB_TIMES_ROOM == ZUB_TIMES_WIDTH * ZUB_MOST_JOBS);
    CHECK(ZUB_ARCS_ROOM == ZUB_ARC_WIDTH * ZUB_MOST_ARCS);
    CHECK(ZUB_SECTIONS_ROOM == ZUB_SECTION_WIDTH * ZUB_MOST_SECTIONS);
    reads_and_writes();
    plans();
    steps();
    runs_and_answers();
    printf("entries: the nine functions answer C as they should\n");
    return 0;
}
