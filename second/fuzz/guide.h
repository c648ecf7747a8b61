/*
 * A plain reader of sheets that only gives the number. The library is not instrumented, so this is what leads the fuzzer deeper
 * into a sheet; and it is one more opinion on the number.
 */
#ifndef GUIDE_H
#define GUIDE_H

#include <stddef.h>
#include <stdint.h>

static unsigned two(const uint8_t *at) {
    return at[0] + 256u * at[1];
}

static int beyond(const uint8_t *sets, unsigned bytes, unsigned count, unsigned width) {
    for (unsigned bit = 0; bit < 8 * bytes; bit++)
        if (bit % width >= count && sets[bit / 8] >> bit % 8 & 1)
            return 1;
    return 0;
}

static int included(const uint8_t *arrows, unsigned count, const uint8_t *arrow) {
    for (unsigned low = 0, high = count; low < high;) {
        unsigned middle = (low + high) / 2;
        const uint8_t *other = arrows + 3 * middle;
        int order = other[0] != 2 ? other[0] - 2 : other[1] != arrow[1] ? other[1] - arrow[1] : other[2] - arrow[2];
        if (order == 0)
            return 1;
        if (order < 0)
            low = middle + 1;
        else
            high = middle;
    }
    return 0;
}

/* Numbers 5 and 6, or 0. */
static int guide_arrows(const uint8_t *arrows, unsigned count, unsigned steps) {
    for (unsigned i = 0; i < count; i++) {
        const uint8_t *now = arrows + 3 * i, *last = now - 3;
        if (now[0] > 3 || now[1] >= steps || now[2] >= steps)
            return 5;
        if (i > 0 && (now[0] != last[0]   ? now[0] < last[0]
                      : now[1] != last[1] ? now[1] < last[1]
                                          : now[2] <= last[2]))
            return 5;
    }
    for (unsigned i = 0; i < count; i++)
        if (arrows[3 * i] == 3 && included(arrows, count, arrows + 3 * i))
            return 6;
    return 0;
}

/* Numbers 1 to 6, or 0. In five bodies every step is an action of its own. */
static int guide(const uint8_t *sheet, size_t size) {
    if (size == 0 || (sheet[0] != 5 && sheet[0] != 6))
        return 1;
    unsigned bodies = sheet[0], counted = bodies - 2, start = 1 + 5 * bodies, end = start, offset[6], length[6];
    if (size < start + counted || size > (bodies == 5 ? 37077 : 37147))
        return 1;
    for (unsigned i = 0; i < bodies; i++) {
        const uint8_t *line = sheet + 1 + 5 * i;
        offset[i] = two(line + 1);
        length[i] = two(line + 3);
        if (line[0] != i + 1 || offset[i] != end)
            return 1;
        end += length[i];
    }
    if (end != size || length[0] != counted || length[1] != 24 || length[4] % 3 != 0)
        return 1;
    const uint8_t *counts = sheet + start;
    unsigned steps = counts[0], people = counts[1], roles = counts[2], actions = counts[bodies == 5 ? 0 : 3];
    if (steps < 1 || steps > 64 || people < 1 || people > 16 || roles < 1 || roles > 16 || actions < 1 || actions > 64)
        return 2;
    if (length[2] != 2 * actions || length[3] != 2 * people || (bodies == 6 && length[5] != steps))
        return 3;
    if (beyond(sheet + offset[1], 24, steps, 64) || beyond(sheet + offset[2], length[2] + length[3], roles, 16))
        return 4;
    for (unsigned s = 0; bodies == 6 && s < steps; s++)
        if (sheet[offset[5] + s] >= actions)
            return 4;
    return guide_arrows(sheet + offset[4], length[4] / 3, steps);
}

#endif
