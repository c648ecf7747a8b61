/*
 * Writes sheets to start from into a folder: the smallest, the sample job's and the longest, each in six bodies and in five, and one
 * with steps that share an action and an action that no step has.
 */
#include "../../include/ulzhartep.h"

#include <stdio.h>
#include <string.h>

static int save(const char *folder, const char *name, const uint8_t *sheet, size_t size) {
    char path[4096];
    snprintf(path, sizeof path, "%s/%s", folder, name);
    FILE *file = fopen(path, "wb");
    int saved = file && fwrite(sheet, 1, size, file) == size;
    return (file && fclose(file) != 0) || !saved;
}

static int save_six(const char *folder, const char *name, const ulz_graph *g, ulz_marking marking) {
    static uint8_t room[ULZ_SHEET_BYTES];
    ulz_written written = ulz_write(g, marking, room, sizeof room);
    return written.number != ULZ_ANSWERED || save(folder, name, room, written.length);
}

/* Of a graph in which every step is an action of its own: without the last line, the count of actions and the last body. */
static int save_five(const char *folder, const char *name, const ulz_graph *g, ulz_marking marking) {
    static uint8_t six[ULZ_SHEET_BYTES], five[ULZ_SHEET_BYTES];
    ulz_written written = ulz_write(g, marking, six, sizeof six);
    if (written.number != ULZ_ANSWERED)
        return 1;
    size_t size = written.length - 6 - g->steps;
    memcpy(five, six, 26);
    memcpy(five + 26, six + 31, 3);
    memcpy(five + 29, six + 35, size - 29);
    five[0] = 5;
    five[4] = 3;
    for (int line = 0; line < 5; line++) {
        uint8_t *place = five + 2 + 5 * line;
        unsigned offset = place[0] + 256u * place[1] - (line == 0 ? 5 : 6);
        place[0] = (uint8_t)offset;
        place[1] = (uint8_t)(offset >> 8);
    }
    return save(folder, name, five, size);
}

int main(int count, char **words) {
    ulz_graph smallest = {.steps = 1, .people = 1, .roles = 1, .actions = 1, .allows = {1}, .holds = {1}};
    ulz_graph sample = {.steps = 3,
                        .people = 2,
                        .roles = 2,
                        .actions = 3,
                        .conditions = {0, 0, 2},
                        .responses = {2},
                        .includes = {0, 4},
                        .excludes = {4},
                        .allows = {3, 1, 2},
                        .holds = {1, 2},
                        .labels = {0, 1, 2}};
    ulz_graph shared = {.steps = 4,
                        .people = 2,
                        .roles = 2,
                        .actions = 3,
                        .conditions = {0, 0, 0, 6},
                        .responses = {6},
                        .allows = {3, 2, 1},
                        .holds = {1, 2},
                        .labels = {0, 2, 2, 0}};
    ulz_graph longest = {.steps = 64, .people = 16, .roles = 16, .actions = 64};
    for (int s = 0; s < 64; s++) {
        longest.allows[s] = longest.holds[s % 16] = 0xffff;
        longest.conditions[s] = longest.responses[s] = UINT64_MAX;
        longest.includes[s] = 0x00ffff0000ffff00u;
        longest.excludes[s] = ~longest.includes[s];
        longest.labels[s] = (uint64_t)s;
    }
    ulz_marking one = {0, 0, 1}, start = {0, 0, 7}, any = {1, 2, UINT64_MAX};
    return count != 2 || save_six(words[1], "smallest", &smallest, one) || save_five(words[1], "smallest-five", &smallest, one) ||
           save_six(words[1], "sample", &sample, start) || save_five(words[1], "sample-five", &sample, start) ||
           save_six(words[1], "shared", &shared, start) || save_six(words[1], "longest", &longest, any) ||
           save_five(words[1], "longest-five", &longest, any);
}
