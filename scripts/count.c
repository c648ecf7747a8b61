/*
 * A plugin of QEMU's: counts the instructions that a program of one thread executes between a `pause` and the next, and hands the
 * count to the program itself, as a line of its standard input. An instruction that repeats itself (`rep`) counts each time.
 *
 * Debian has no header for plugins; what is used of its version 1 stands here.
 */
#include <inttypes.h>
#include <stddef.h>
#include <stdio.h>
#include <stdlib.h>
#include <string.h>
#include <unistd.h>

struct qemu_plugin_tb;
struct qemu_plugin_insn;
enum { ADD_U64 = 0, NO_REGS = 0 };

void qemu_plugin_register_vcpu_tb_trans_cb(uint64_t id, void (*call)(uint64_t id, struct qemu_plugin_tb *block));
size_t qemu_plugin_tb_n_insns(const struct qemu_plugin_tb *block);
struct qemu_plugin_insn *qemu_plugin_tb_get_insn(const struct qemu_plugin_tb *block, size_t index);
const void *qemu_plugin_insn_data(const struct qemu_plugin_insn *instruction);
size_t qemu_plugin_insn_size(const struct qemu_plugin_insn *instruction);
void qemu_plugin_register_vcpu_insn_exec_inline(struct qemu_plugin_insn *instruction, int what, void *number, uint64_t added);
void qemu_plugin_register_vcpu_insn_exec_cb(struct qemu_plugin_insn *instruction, void (*call)(unsigned cpu, void *data), int registers,
                                            void *data);

int qemu_plugin_version = 1;

static uint64_t count;
static int counting, input;

static void mark(unsigned cpu, void *data) {
    (void)cpu, (void)data;
    if (counting && dprintf(input, "%" PRIu64 "\n", count) < 0)
        abort();
    counting = !counting;
    count = 0;
}

static void translated(uint64_t id, struct qemu_plugin_tb *block) {
    (void)id;
    for (size_t i = 0; i < qemu_plugin_tb_n_insns(block); i++) {
        struct qemu_plugin_insn *instruction = qemu_plugin_tb_get_insn(block, i);
        if (qemu_plugin_insn_size(instruction) == 2 && memcmp(qemu_plugin_insn_data(instruction), "\xf3\x90", 2) == 0)
            qemu_plugin_register_vcpu_insn_exec_cb(instruction, mark, NO_REGS, NULL);
        else
            qemu_plugin_register_vcpu_insn_exec_inline(instruction, ADD_U64, &count, 1);
    }
}

int qemu_plugin_install(uint64_t id, const void *info, int words, char **word) {
    int ends[2];
    (void)info, (void)words, (void)word;
    if (pipe(ends) != 0 || dup2(ends[0], STDIN_FILENO) < 0)
        return 1;
    input = ends[1];
    qemu_plugin_register_vcpu_tb_trans_cb(id, translated);
    return 0;
}
