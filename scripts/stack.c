/*
 * Measures how much of the stack each call of the library takes: the call runs on a stack that was painted, and what is no longer
 * painted afterwards was used. Fails where that is more than the header says.
 */
#include <stdio.h>
#include <string.h>
#include <ucontext.h>

#include "ulzhartep.h"

enum { ROOM = 1 << 16, PAINT = 0xa5, STEPS = 64 };

static uint8_t stack[ROOM], journal[3 * 2000], sheet[ULZ_SHEET_BYTES], record[ULZ_RECORD_BYTES], out[ULZ_RECORD_BYTES];
static uint8_t store[ULZ_STORE_MOST * ULZ_MARKING_BYTES], mast[312];
static size_t sheet_length;
static ulz_graph graph, again;
static ulz_marking start, marking;
static ulz_track track;
static ulz_record sets;
static const ulz_entry entry = {0, 5, 0};
/* From here on the job is never finished, and a search goes on until its store is full. */
static const ulz_marking all_due = {0, UINT64_MAX, UINT64_MAX};
static ucontext_t home, there;
static uint64_t number;

static void none(void) { number = 0; }
static void check(void) { number = ulz_check(&graph); }
static void ask(void) { number = ulz_ask(&graph, start, entry).number; }
static void allowed(void) { number = ulz_allowed_to(&graph, start, 15).number; }
static void someone(void) { number = ulz_allowed_to_someone(&graph, start).number; }
static void take(void) { number = ulz_take(&graph, start, entry).number; }
static void finished(void) { number = ulz_finished(&graph, start).number; }
static void keep(void) { number = ulz_keep(&graph, &marking, entry).number; }
static void run(void) { number = ulz_run(&graph, start, journal, sizeof journal).number; }
static void walk(void) { number = ulz_walk(journal, sizeof journal, 7).number; }
static void fold(void) { number = ulz_fold(&graph, journal, sizeof journal, out); }
static void join(void) { number = ulz_join(STEPS, record, sizeof record, record, sizeof record, out); }
static void apply(void) { number = ulz_apply(STEPS, record, sizeof record, start).number; }
static void record_read(void) { number = ulz_record_read(STEPS, record, sizeof record, &sets); }
static void record_write(void) { number = ulz_record_write(STEPS, &sets, out, sizeof out).number; }
static void restore(void) { number = ulz_restore(&graph, record, sizeof record, journal, sizeof journal, start).number; }
static void reads(void) { number = ulz_read(sheet, sheet_length, &again, &marking); }
static void writes(void) { number = ulz_write(&graph, start, sheet, sizeof sheet).number; }
static void cabinet(void) { number = ulz_cabinet(16, mast, sizeof mast).number; }
static void lap(void) { number = ulz_lap(&graph, start, journal, sizeof journal, journal, sizeof journal).number; }
static void can_end(void) { number = ulz_can_end(&graph, all_due, store, sizeof store).number; }
static void track_start(void) { number = ulz_track_start(&graph, start).number; }
static void track_idle(void) { number = ulz_track_idle(&graph, track).number; }
static void track_step(void) { number = ulz_track_step(&graph, track, entry).number; }

static const struct {
    const char *name;
    void (*call)(void);
} calls[] = {
    {"check", check}, {"ask", ask}, {"allowed_to", allowed}, {"allowed_to_someone", someone}, {"take", take},
    {"finished", finished}, {"keep", keep}, {"run", run}, {"walk", walk}, {"fold", fold}, {"join", join}, {"apply", apply},
    {"record_read", record_read}, {"record_write", record_write}, {"restore", restore}, {"write", writes}, {"read", reads},
    {"cabinet", cabinet}, {"lap", lap}, {"can_end", can_end}, {"track_start", track_start},
    {"track_idle", track_idle}, {"track_step", track_step},
};

/* A full graph: everything responds to and includes everything, nothing waits, and person 0 may do it all. */
static void prepare(void) {
    graph.steps = STEPS, graph.people = 16, graph.roles = 16, graph.actions = STEPS;
    for (int step = 0; step < STEPS; step++) {
        graph.responses[step] = graph.includes[step] = UINT64_MAX;
        graph.allows[step] = 0xffff;
        graph.labels[step] = (uint64_t)step;
    }
    for (int person = 0; person < 16; person++)
        graph.holds[person] = 0xffff;
    start.included = UINT64_MAX;
    for (size_t i = 0; i < sizeof journal / 3; i++)
        journal[3 * i + 1] = (uint8_t)(i % STEPS);
    sheet_length = ulz_write(&graph, start, sheet, sizeof sheet).length;
    ulz_fold(&graph, journal, sizeof journal, record);
    ulz_record_read(STEPS, record, sizeof record, &sets);
    track = ulz_track_start(&graph, start).track;
    marking = start;
}

static size_t used(void (*call)(void)) {
    memset(stack, PAINT, sizeof stack);
    getcontext(&there);
    there.uc_stack.ss_sp = stack;
    there.uc_stack.ss_size = sizeof stack;
    there.uc_link = &home;
    makecontext(&there, call, 0);
    swapcontext(&home, &there);
    size_t untouched = 0;
    while (untouched < sizeof stack && stack[untouched] == PAINT)
        untouched++;
    return sizeof stack - untouched;
}

int main(void) {
    size_t most = 0;
    prepare();
    const size_t idle = used(none);
    for (size_t i = 0; i < sizeof calls / sizeof calls[0]; i++) {
        const size_t bytes = used(calls[i].call) - idle;
        printf("%-18s %5zu bytes\n", calls[i].name, bytes);
        if (number != ULZ_ANSWERED)
            return fprintf(stderr, "stack: %s was refused with %d\n", calls[i].name, (int)number), 2;
        most = bytes > most ? bytes : most;
    }
    printf("at most %zu bytes of stack in a call; the header says %d\n", most, ULZ_STACK_BYTES);
    return most > ULZ_STACK_BYTES;
}
