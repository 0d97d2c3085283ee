/* A libFuzzer target for the reader. A text that is read is written again byte for byte; one that is
 * refused leaves the lists as they were, and its line is one that it can have.
 *
 * The archive carries no counters of its own, so the target has one for each line at which a text can be
 * refused: libFuzzer then keeps whatever is right for a line longer. */
#include <stdlib.h>
#include <string.h>
#include <zubrelets.h>

enum { UNTOUCHED = 0x4d, LINES = 1219 };

__attribute__((section("__libfuzzer_extra_counters")))
static volatile uint8_t reached[5][LINES + 2];

static uint32_t jobs[ZUB_JOBS_ROOM], arcs[ZUB_ARCS_ROOM], sections[ZUB_SECTIONS_ROOM];
static uint8_t out[ZUB_TEXT_ROOM];

static void must(bool holds)
{
    if (!holds)
        abort();
}

static bool untouched(const void *list, size_t bytes)
{
    const uint8_t *at = list;
    return at[0] == UNTOUCHED && memcmp(at, at + 1, bytes - 1) == 0;
}

int LLVMFuzzerTestOneInput(const uint8_t *text, size_t length);

int LLVMFuzzerTestOneInput(const uint8_t *text, size_t length)
{
    memset(jobs, UNTOUCHED, sizeof jobs);
    memset(arcs, UNTOUCHED, sizeof arcs);
    memset(sections, UNTOUCHED, sizeof sections);
    zub_counts read = zub_read(text, length, jobs, ZUB_JOBS_ROOM, arcs, ZUB_ARCS_ROOM,
                               sections, ZUB_SECTIONS_ROOM);
    must(read.refusal <= ZUB_REFUSED_SECTIONS && read.place <= LINES + 1);
    reached[read.refusal][read.place] = 1;
    if (read.refusal != ZUB_NO_REFUSAL) {
        must(read.place >= 1 && untouched(jobs, sizeof jobs));
        must(untouched(arcs, sizeof arcs) && untouched(sections, sizeof sections));
        return 0;
    }
    zub_length written = zub_write(jobs, ZUB_JOB_WIDTH * read.jobs, arcs, ZUB_ARC_WIDTH * read.arcs,
                                   sections, ZUB_SECTION_WIDTH * read.sections, out, sizeof out);
    must(written.refusal == ZUB_NO_REFUSAL && written.bytes == length);
    must(memcmp(out, text, length) == 0);
    return 0;
}
