/* A plug-in for qemu that counts the instructions a program executes, block by block, and prints the sum when it ends.
   Given the word 'where', it also prints the blocks in which most of them were.
   The few declarations that it needs are written out, since qemu's header is not installed with it. */
#include <inttypes.h>
#include <stdio.h>
#include <stdlib.h>
#include <string.h>

#ifndef VERSION
#define VERSION 1
#endif

struct qemu_plugin_tb;
struct qemu_plugin_insn;
typedef uint64_t plugin_id;
typedef void (*on_translation)(plugin_id, struct qemu_plugin_tb *);
typedef void (*on_execution)(unsigned, void *);
typedef void (*on_ended)(plugin_id, void *);

void qemu_plugin_register_vcpu_tb_trans_cb(plugin_id, on_translation);
void qemu_plugin_register_vcpu_tb_exec_cb(struct qemu_plugin_tb *, on_execution, int flags, void *);
void qemu_plugin_register_atexit_cb(plugin_id, on_ended, void *);
size_t qemu_plugin_tb_n_insns(const struct qemu_plugin_tb *);
uint64_t qemu_plugin_tb_vaddr(const struct qemu_plugin_tb *);
struct qemu_plugin_insn *qemu_plugin_tb_get_insn(const struct qemu_plugin_tb *, size_t);
const char *qemu_plugin_insn_symbol(const struct qemu_plugin_insn *);

__attribute__((visibility("default"))) int qemu_plugin_version = VERSION;

/* A block of instructions that are executed one after another. */
struct block {
    struct block *next;
    uint64_t address, length, times;
    const char *symbol;
};

static struct block *blocks;
static size_t block_count;
static int where;

static void executed(unsigned processor, void *data) {
    (void)processor;
    ((struct block *)data)->times++;
}

static struct block *block_of(uint64_t address, uint64_t length) {
    for (struct block *b = blocks; b; b = b->next)
        if (b->address == address && b->length == length) return b;
    struct block *b = calloc(1, sizeof *b);
    if (!b) abort();
    *b = (struct block){blocks, address, length, 0, NULL};
    blocks = b;
    block_count++;
    return b;
}

static void translated(plugin_id id, struct qemu_plugin_tb *tb) {
    (void)id;
    struct block *b = block_of(qemu_plugin_tb_vaddr(tb), qemu_plugin_tb_n_insns(tb));
    const char *symbol = where ? qemu_plugin_insn_symbol(qemu_plugin_tb_get_insn(tb, 0)) : NULL;
    if (symbol && !b->symbol) b->symbol = strdup(symbol);
    qemu_plugin_register_vcpu_tb_exec_cb(tb, executed, 0, b);
}

static uint64_t weight(const struct block *b) { return b->length * b->times; }

static int heavier(const void *left, const void *right) {
    uint64_t l = weight(*(struct block *const *)left), r = weight(*(struct block *const *)right);
    return (l < r) - (l > r);
}

static void print_blocks(void) {
    struct block **all = malloc(block_count * sizeof *all);
    if (!all) abort();
    size_t n = 0;
    for (struct block *b = blocks; b; b = b->next) all[n++] = b;
    qsort(all, n, sizeof *all, heavier);
    /* qemu puts the program at a fixed place; below it are the addresses of the file. */
    for (size_t i = 0; i < n && i < 60; i++)
        fprintf(stderr, "%12" PRIu64 " = %10" PRIu64 " times %3" PRIu64 " at %" PRIx64 " %s\n", weight(all[i]),
                all[i]->times, all[i]->length, all[i]->address & 0x3fffffffff, all[i]->symbol ? all[i]->symbol : "");
    free(all);
}

static void ended(plugin_id id, void *data) {
    (void)id;
    (void)data;
    uint64_t sum = 0;
    for (struct block *b = blocks; b; b = b->next) sum += weight(b);
    if (where) print_blocks();
    fprintf(stderr, "instructions %" PRIu64 "\n", sum);
}

__attribute__((visibility("default"))) int qemu_plugin_install(plugin_id id, const void *info, int argc, char **argv) {
    (void)info;
    for (int i = 0; i < argc; i++)
        if (strncmp(argv[i], "where", 5) == 0) where = 1;
    qemu_plugin_register_vcpu_tb_trans_cb(id, translated);
    qemu_plugin_register_atexit_cb(id, ended, NULL);
    return 0;
}
