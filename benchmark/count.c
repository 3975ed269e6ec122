/* A plugin of qemu's user emulation (`qemu-x86_64 -plugin`): counts the instructions that a program executes, exactly, and can list how often
   each address was executed.

   Arguments: out=FILE, list=on (a line for each address: hexadecimal address, tab, count). The first line is the total.

   The declarations are those of qemu's public plugin interface: version 1 (qemu up to 8), or version 2 (qemu 9 and later, compile with
   -DINTERFACE=2), which has no counters in line for a plugin's own memory, so that each run is counted by a call. */
#include <inttypes.h>
#include <stdbool.h>
#include <stdint.h>
#include <stdio.h>
#include <stdlib.h>
#include <string.h>

#ifndef INTERFACE
#define INTERFACE 1
#endif

typedef uint64_t plugin_id;
struct tb;
struct insn;
void qemu_plugin_register_vcpu_tb_trans_cb(plugin_id, void (*)(plugin_id, struct tb *));
void qemu_plugin_register_atexit_cb(plugin_id, void (*)(plugin_id, void *), void *);
size_t qemu_plugin_tb_n_insns(const struct tb *);
struct insn *qemu_plugin_tb_get_insn(const struct tb *, size_t);
uint64_t qemu_plugin_insn_vaddr(const struct insn *);

#if INTERFACE == 1
void qemu_plugin_register_vcpu_tb_exec_inline(struct tb *, int, void *, uint64_t);
void qemu_plugin_register_vcpu_insn_exec_inline(struct insn *, int, void *, uint64_t);
#else
void qemu_plugin_register_vcpu_tb_exec_cb(struct tb *, void (*)(unsigned, void *), int, void *);
void qemu_plugin_register_vcpu_insn_exec_cb(struct insn *, void (*)(unsigned, void *), int, void *);
#endif

__attribute__((visibility("default"))) int qemu_plugin_version = INTERFACE;

/* A run of instructions as qemu translated it: once entered, it is executed to its end. Its last instruction is counted by itself: where that one
   lies across a page's end, qemu takes it out of the run again and lets another run begin with it, but up to version 8 still lists it here. */
struct run {
    struct run *next;
    uint64_t entered, last;
    size_t n;
    uint64_t at[];
};

static struct run *runs;
static bool list;
static char *path;

#if INTERFACE != 1
static void one_more(unsigned cpu, void *counter)
{
    (void)cpu;
    ++*(uint64_t *)counter;
}
#endif

static void translated(plugin_id id, struct tb *tb)
{
    (void)id;
    size_t n = qemu_plugin_tb_n_insns(tb);
    if (n == 0) return;
    struct run *r = malloc(sizeof *r + n * sizeof r->at[0]);
    if (!r) abort();
    r->entered = r->last = 0;
    r->n = n;
    for (size_t i = 0; i < n; i++) r->at[i] = qemu_plugin_insn_vaddr(qemu_plugin_tb_get_insn(tb, i));
    r->next = runs;
    runs = r;
    struct insn *last = qemu_plugin_tb_get_insn(tb, n - 1);
#if INTERFACE == 1
    qemu_plugin_register_vcpu_tb_exec_inline(tb, 0, &r->entered, 1);
    qemu_plugin_register_vcpu_insn_exec_inline(last, 0, &r->last, 1);
#else
    qemu_plugin_register_vcpu_tb_exec_cb(tb, one_more, 0, &r->entered);
    qemu_plugin_register_vcpu_insn_exec_cb(last, one_more, 0, &r->last);
#endif
}

struct line {
    uint64_t at, count;
};

static int by_address(const void *a, const void *b)
{
    const struct line *x = a, *y = b;
    return (x->at > y->at) - (x->at < y->at);
}

static void write_list(FILE *f, size_t lines)
{
    struct line *all = malloc((lines + 1) * sizeof *all);
    if (!all) abort();
    size_t k = 0;
    for (struct run *r = runs; r; r = r->next)
        for (size_t i = 0; i < r->n; i++) all[k++] = (struct line){r->at[i], i + 1 < r->n ? r->entered : r->last};
    qsort(all, k, sizeof *all, by_address);
    for (size_t i = 0; i < k;) {
        uint64_t at = all[i].at, sum = 0;
        while (i < k && all[i].at == at) sum += all[i++].count;
        if (sum) fprintf(f, "%" PRIx64 "\t%" PRIu64 "\n", at, sum);
    }
    free(all);
}

static void ended(plugin_id id, void *unused)
{
    (void)id, (void)unused;
    FILE *f = fopen(path, "w");
    if (!f) abort();
    uint64_t total = 0;
    size_t lines = 0;
    for (struct run *r = runs; r; r = r->next) {
        total += r->entered * (r->n - 1) + r->last;
        lines += r->n;
    }
    fprintf(f, "%" PRIu64 "\n", total);
    if (list) write_list(f, lines);
    fclose(f);
}

__attribute__((visibility("default"))) int qemu_plugin_install(plugin_id id, const void *info, int argc, char **argv)
{
    (void)info;
    for (int i = 0; i < argc; i++) {
        if (!strncmp(argv[i], "out=", 4)) path = strdup(argv[i] + 4);
        else if (!strcmp(argv[i], "list=on")) list = true;
        else return -1;
    }
    if (!path) return -1;
    qemu_plugin_register_vcpu_tb_trans_cb(id, translated);
    qemu_plugin_register_atexit_cb(id, ended, NULL);
    return 0;
}
