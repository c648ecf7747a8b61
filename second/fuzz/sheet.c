/*
 * A libFuzzer target over ulz_read and ulz_write. Any bytes are answered with 0 or a number from 1 to 6, which a plain reader
 * gives too; a refused sheet leaves the lent memory alone; an accepted one is written back, one of six bodies byte for byte, and
 * one of five bodies in six, which are then read as before. Sheet and room end at a page that must not be touched, so that reading
 * or writing beyond them is a crash.
 */
#include "../../include/ulzhartep.h"
#include "guide.h"
#include "mutate.h"

#include <stdio.h>
#include <sys/mman.h>
#include <unistd.h>

#define MOST ((size_t)1 << 17)

struct job {
    ulz_graph graph;
    ulz_marking marking;
};

/* By form, six bodies or five or neither, and by number. */
static uint64_t came[3][7];
static uint8_t *sheet_end, *room_end;

static void expect(int holds, const char *what) {
    if (!holds) {
        fprintf(stderr, "finding: %s\n", what);
        abort();
    }
}

/* The end of a stretch of memory that nothing may be read or written beyond. */
static uint8_t *fenced(void) {
    size_t page = (size_t)sysconf(_SC_PAGESIZE);
    uint8_t *start = mmap(NULL, MOST + page, PROT_READ | PROT_WRITE, MAP_PRIVATE | MAP_ANONYMOUS, -1, 0);
    expect(start != MAP_FAILED && mprotect(start + MOST, page, PROT_NONE) == 0, "no memory");
    return start + MOST;
}

static void print(void) {
    static const char *const forms[] = {"six bodies", "five bodies", "neither"};
    for (int form = 0; form < 3; form++) {
        fprintf(stderr, "%s: accepted %llu", forms[form], (unsigned long long)came[form][0]);
        for (int number = 1; number < 7; number++)
            fprintf(stderr, ", refused with %d %llu", number, (unsigned long long)came[form][number]);
        fprintf(stderr, "\n");
    }
}

int LLVMFuzzerInitialize(int *argc, char ***argv) {
    (void)argc, (void)argv;
    sheet_end = fenced();
    room_end = fenced();
    atexit(print);
    return 0;
}

/* Writes a sheet of this size, for which a room that is a byte shorter is too short. */
static const uint8_t *written(const struct job *job, size_t size) {
    uint8_t *room = room_end - size;
    memset(room, 0x5a, size);
    ulz_written written = ulz_write(&job->graph, job->marking, room + 1, size - 1);
    expect(written.number == ULZ_ROOM && written.length == 0, "a room that is too short is not refused with 18");
    for (size_t i = 0; i < size; i++)
        expect(room[i] == 0x5a, "a room that is too short is written");
    written = ulz_write(&job->graph, job->marking, room, size);
    expect(written.number == ULZ_ANSWERED && written.length == size, "what was read is not written");
    return room;
}

/* Of a sheet of six bodies. */
static void write_back(const struct job *read, const uint8_t *sheet, size_t size) {
    expect(memcmp(written(read, size), sheet, size) == 0, "what was read is written otherwise");
}

/* Of one of five. In six it has a line more, a count more, and a byte for each step; it is written over the sheet that was read. */
static void convert(const struct job *read, size_t size) {
    const ulz_graph *g = &read->graph;
    expect(g->actions == g->steps, "five bodies, and not as many actions as steps");
    for (uint64_t s = 0; s < 64; s++)
        expect(g->labels[s] == (s < g->steps ? s : 0), "five bodies, and a step with another action than its own");
    size += 6 + g->steps;
    uint8_t *sheet = sheet_end - size;
    memcpy(sheet, written(read, size), size);
    struct job again;
    memset(&again, 0xa5, sizeof again);
    uint64_t number = ulz_read(sheet, size, &again.graph, &again.marking);
    expect(sheet[0] == 6 && number == ULZ_ANSWERED, "five bodies are not written as six that are read");
    expect(memcmp(&again, read, sizeof again) == 0, "five bodies, written as six, are read otherwise");
    write_back(&again, sheet, size);
}

static int form_by(const uint8_t *sheet, size_t size) {
    if (size == 0)
        return 2;
    return sheet[0] == 6 ? 0 : sheet[0] == 5 ? 1 : 2;
}

int LLVMFuzzerTestOneInput(const uint8_t *data, size_t size) {
    if (size > MOST)
        return 0;
    uint8_t *sheet = sheet_end - size;
    memcpy(sheet, data, size);
    struct job read, before;
    memset(&before, 0xa5, sizeof before);
    memcpy(&read, &before, sizeof read);
    uint64_t number = ulz_read(sheet, size, &read.graph, &read.marking);
    expect(number <= ULZ_BOTH, "a number that is not 0 to 6");
    expect(number == (uint64_t)guide(sheet, size), "another number than the plain reader's");
    expect(memcmp(sheet, data, size) == 0, "the sheet is written");
    int form = form_by(data, size);
    if (number != ULZ_ANSWERED)
        expect(memcmp(&read, &before, sizeof read) == 0, "a refused sheet has written something");
    else if (form == 0)
        write_back(&read, sheet, size);
    else
        convert(&read, size);
    came[form][number]++;
    return 0;
}
