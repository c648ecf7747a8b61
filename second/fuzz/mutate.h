/*
 * Changes a sheet by chance and then, most often, lets its contents, its arrows and the actions of its steps fit again, so that the
 * depths are reached. A sheet is in five bodies where its byte 0 is 5, and otherwise it is made one of six.
 */
#ifndef MUTATE_H
#define MUTATE_H

#include <stddef.h>
#include <stdint.h>
#include <stdlib.h>
#include <string.h>

size_t LLVMFuzzerMutate(uint8_t *data, size_t size, size_t max_size);

static int by_triple(const void *a, const void *b) {
    return memcmp(a, b, 3);
}

/* How many bodies there are, and the counts that the bodies go by. In five bodies there are as many actions as steps. */
struct form {
    unsigned bodies, steps, people, actions;
};

static struct form form_of(const uint8_t *sheet) {
    unsigned bodies = sheet[0] == 5 ? 5 : 6;
    const uint8_t *counts = sheet + 1 + 5 * bodies;
    return (struct form){bodies, counts[0], counts[1], counts[bodies == 5 ? 0 : 3]};
}

/* Where the arrows begin and end; behind them stand only the actions of the steps. */
struct arrows {
    size_t from, to;
};

/* Writes the lines for the counts that the sheet names. The arrows begin at 0 if there is no room for them. */
static struct arrows fit_contents(uint8_t *sheet, size_t size) {
    struct form form = form_of(sheet);
    unsigned bodies = form.bodies, labels = bodies == 5 ? 0 : form.steps;
    size_t lengths[6] = {bodies - 2, 24, 2 * form.actions, 2 * form.people, 0, labels}, at = 1 + 5 * bodies;
    size_t from = at + lengths[0] + lengths[1] + lengths[2] + lengths[3];
    if (size < from + labels)
        return (struct arrows){0, 0};
    lengths[4] = size - labels - from;
    sheet[0] = (uint8_t)bodies;
    for (unsigned i = 0; i < bodies; i++) {
        uint8_t line[5] = {(uint8_t)(i + 1), (uint8_t)at, (uint8_t)(at >> 8), (uint8_t)lengths[i], (uint8_t)(lengths[i] >> 8)};
        memcpy(sheet + 1 + 5 * i, line, 5);
        at += lengths[i];
    }
    return (struct arrows){from, size - labels};
}

static uint8_t below(uint8_t number, unsigned count) {
    return (uint8_t)(number % (count == 0 ? 1 : count));
}

/* Makes every arrow one of the graph's, in order and once. Gives the new size. */
static size_t fit_arrows(uint8_t *sheet, size_t size, struct arrows at) {
    size_t count = (at.to - at.from) / 3, kept = 0;
    uint8_t *arrows = sheet + at.from;
    unsigned steps = form_of(sheet).steps;
    for (size_t i = 0; i < count; i++) {
        uint8_t *arrow = arrows + 3 * i;
        arrow[0] %= 4;
        arrow[1] = below(arrow[1], steps);
        arrow[2] = below(arrow[2], steps);
    }
    qsort(arrows, count, 3, by_triple);
    for (size_t i = 0; i < count; i++)
        if (kept == 0 || by_triple(arrows + 3 * (kept - 1), arrows + 3 * i) != 0)
            memmove(arrows + 3 * kept++, arrows + 3 * i, 3);
    memmove(arrows + 3 * kept, sheet + at.to, size - at.to);
    return at.from + 3 * kept + (size - at.to);
}

/* Makes every step's action one of the graph's. */
static void fit_labels(uint8_t *sheet, size_t size, struct arrows at) {
    unsigned actions = form_of(sheet).actions;
    for (size_t i = at.to; i < size; i++)
        sheet[i] = below(sheet[i], actions);
}

/* Are there all counts? */
static int counted(const uint8_t *sheet, size_t size) {
    return size >= 29 && (sheet[0] == 5 || size >= 35);
}

size_t LLVMFuzzerCustomMutator(uint8_t *data, size_t size, size_t max_size, unsigned seed) {
    size = LLVMFuzzerMutate(data, size, max_size);
    if (!counted(data, size) || seed % 4 == 0)
        return size;
    struct arrows arrows = fit_contents(data, size);
    if (arrows.from == 0 || seed % 4 == 1)
        return size;
    if (seed % 16 != 2)
        fit_labels(data, size, arrows);
    size = fit_arrows(data, size, arrows);
    fit_contents(data, size);
    return size;
}

#endif
