/*
 * A day of the sample job: 0 reboot, 1 order check, 2 publish. After a reboot nothing is published before the check,
 * also where the journal has been folded into a record and forgotten. Then the job is rewritten and cannot end any
 * more. A mast on which the order is checked at two places. And the cabinet's job for a mast with three arms.
 */
#include <stdio.h>
#include <stdlib.h>
#include <string.h>

#include "ulzhartep.h"

static const ulz_entry reboot = {0, 0, 0}, publish = {1, 2, 1};

/* The journals of the day. */
static const uint8_t rebooted[3] = {0, 0, 0}, checked[3] = {0, 1, 0}, published[3] = {1, 2, 1};

/* Nothing but this number would be this day. */
static void expect(uint64_t expected, uint64_t number) {
    if (number != expected) {
        fprintf(stderr, "answered %d: %s\n", (int)number, ulz_text(number));
        exit(EXIT_FAILURE);
    }
}

static void print_set(const char *name, uint64_t set) {
    const char *between = "";
    printf("%s {", name);
    for (int step = 0; step < 64; step++) {
        if (set >> step & 1) {
            printf("%s%d", between, step);
            between = ", ";
        }
    }
    printf("}");
}

static void print_marking(const char *when, ulz_marking marking) {
    printf("%s: ", when);
    print_set("done", marking.done);
    print_set(", due", marking.due);
    print_set(", included", marking.included);
    printf("\n");
}

static void print_allowed(const char *when, const ulz_graph *g, ulz_marking marking, uint64_t person) {
    ulz_allowed allowed = ulz_allowed_to(g, marking, person);
    expect(ULZ_ANSWERED, allowed.number);
    printf("%sallowed to person %d", when, (int)person);
    print_set(":", allowed.steps);
    printf("\n");
}

static ulz_graph job(void) {
    ulz_graph g = {0};
    g.steps = 3, g.people = 2, g.roles = 2, g.actions = 3;
    for (uint64_t step = 0; step < g.steps; step++)
        g.labels[step] = step; /* every step is an action of its own */
    g.conditions[2] = 1 << 1; /* publish waits for the check */
    g.responses[0] = 1 << 1;  /* a reboot makes the check due */
    g.includes[1] = 1 << 2;   /* the check includes publishing, */
    g.excludes[0] = 1 << 2;   /* which a reboot excludes */
    g.allows[0] = 1 | 2, g.allows[1] = 1, g.allows[2] = 2;
    g.holds[0] = 1, g.holds[1] = 2;
    return g;
}

/* With a store for so many markings. */
static void print_end(const char *when, const ulz_graph *g, ulz_marking marking, size_t markings) {
    static uint8_t store[ULZ_STORE_MOST * ULZ_MARKING_BYTES];
    ulz_ends ends = ulz_can_end(g, marking, store, markings * ULZ_MARKING_BYTES);
    expect(ULZ_ANSWERED, ends.number);
    const char *can = ends.verdict == ULZ_REACHABLE ? "yes" : ends.verdict == ULZ_NONE ? "no" : "undecided";
    printf("%s, can end: %s, looked at %d\n", when, can, (int)ends.looked);
    if (ends.verdict == ULZ_REACHABLE) {
        ulz_marking last;
        memcpy(&last, store + (ends.looked - 1) * ULZ_MARKING_BYTES, sizeof last);
        printf("fewest entries: %d\n", (int)ends.fewest);
        print_marking("ended", last);
    }
}

/* After a reboot the check ends the job. If the office rewrites it so that nobody may check, nothing does. */
static void the_end(ulz_marking marking) {
    ulz_graph g = job();
    print_end("rebooted", &g, marking, ULZ_STORE_MOST);
    print_end("with a store for one marking", &g, marking, 1);
    g.allows[1] = 0;
    print_end("rewritten so that nobody may check", &g, marking, ULZ_STORE_MOST);
}

/* Step 3 checks the order of the other half of the mast. It has the action of step 1, and so its roles, whatever they are. */
static ulz_graph double_mast(void) {
    ulz_graph g = job();
    g.steps = 4;
    g.labels[3] = g.labels[1];
    g.conditions[2] |= 1 << 3; /* publish waits for both checks, */
    g.responses[0] |= 1 << 3;  /* which a reboot makes due */
    return g;
}

static void two_checks(void) {
    ulz_graph g = double_mast();
    const ulz_marking start = {0, 0, 15};
    expect(ULZ_ANSWERED, ulz_check(&g));
    print_allowed("double mast, ", &g, start, 1);
    g.allows[g.labels[1]] |= 1 << 1;
    print_allowed("the desk may check, ", &g, start, 1);
}

/* The box writes the sheet. It is published once each arm has been checked, from the ground up. */
static void three_arms(void) {
    static const uint8_t hurried[] = {0, 0, 0, 1, 4, 1}, climbed[] = {0, 1, 0, 0, 2, 0, 0, 3, 0, 1, 4, 1};
    uint8_t sheet[312];
    ulz_written written = ulz_cabinet(17, sheet, sizeof sheet);
    expect(ULZ_ARMS, written.number);
    printf("cabinet with 17 arms: refused with %d, %s\n", (int)written.number, ulz_text(written.number));
    written = ulz_cabinet(3, sheet, sizeof sheet);
    expect(ULZ_ANSWERED, written.number);
    printf("cabinet with 3 arms: %d bytes\n", (int)written.length);

    ulz_graph g = {0};
    ulz_marking start = {0, 0, 0};
    expect(ULZ_ANSWERED, ulz_read(sheet, written.length, &g, &start));
    print_marking("it begins with", start);
    ulz_ran ran = ulz_run(&g, start, hurried, sizeof hurried);
    expect(ULZ_EXCLUDED, ran.number);
    printf("rebooted, publish: refused with %d at entry %d, %s\n", (int)ran.number, (int)ran.entries, ulz_text(ran.number));
    ran = ulz_run(&g, ran.marking, climbed, sizeof climbed);
    expect(ULZ_ANSWERED, ran.number);
    printf("three checks, publish: %d entries taken\n", (int)ran.entries);
    print_marking("published", ran.marking);
}

int main(void) {
    const ulz_graph g = job();
    const ulz_marking start = {0, 0, 7};
    expect(ULZ_ANSWERED, ulz_check(&g));

    ulz_asked asked = ulz_ask(&g, start, publish);
    expect(ULZ_WAITS, asked.number);
    printf("publish, asked: refused with %d, %s", (int)asked.number, ulz_text(asked.number));
    print_set(":", asked.waiting);
    printf("\n");

    ulz_marking marking = start;
    expect(ULZ_ANSWERED, ulz_keep(&g, &marking, reboot).number);
    print_marking("rebooted", marking);
    ulz_kept kept = ulz_keep(&g, &marking, publish);
    expect(ULZ_EXCLUDED, kept.number);
    printf("publish: refused with %d, %s\n", (int)kept.number, ulz_text(kept.number));
    for (uint64_t person = 0; person < g.people; person++)
        print_allowed("", &g, marking, person);

    uint8_t record[ULZ_RECORD_BYTES];
    expect(ULZ_ANSWERED, ulz_fold(&g, rebooted, sizeof rebooted, record));
    printf("folded: %d bytes of journal\n", (int)sizeof rebooted);

    /* From here on only the record knows of the reboot. */
    ulz_ran ran = ulz_restore(&g, record, sizeof record, published, sizeof published, start);
    expect(ULZ_EXCLUDED, ran.number);
    printf("restored, publish: refused with %d at entry %d, %s\n", (int)ran.number, (int)ran.entries, ulz_text(ran.number));
    print_marking("before that entry", ran.marking);
    ran = ulz_restore(&g, record, sizeof record, checked, sizeof checked, start);
    expect(ULZ_ANSWERED, ran.number);
    printf("restored, check: %d entry taken\n", (int)ran.entries);
    print_marking("checked", ran.marking);

    expect(ULZ_ANSWERED, ulz_ask(&g, ran.marking, publish).number);
    printf("publish, asked: allowed\n");
    ulz_moved moved = ulz_take(&g, ran.marking, publish);
    expect(ULZ_ANSWERED, moved.number);
    print_marking("published", moved.marking);
    ulz_ending ending = ulz_finished(&g, moved.marking);
    expect(ULZ_ANSWERED, ending.number);
    printf("finished: %s\n", ending.finished ? "yes" : "no");

    ulz_lapped lapped = ulz_lap(&g, start, checked, sizeof checked, rebooted, sizeof rebooted);
    expect(ULZ_ANSWERED, lapped.number);
    if (lapped.verdict == ULZ_STARVED)
        printf("rebooting for ever: starves step %d\n", (int)lapped.step);

    the_end(marking);
    two_checks();
    three_arms();
    return EXIT_SUCCESS;
}
