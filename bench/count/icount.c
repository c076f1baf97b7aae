/* A plugin for qemu-user that counts, exactly and with the same result at each run, the guest instructions that a
 * program executes, by function and by call, and the bytes that they read and write.
 *
 *   qemu-x86_64 -plugin ./icount.so,out=FILE[,mem=1][,mark=STEP+END][,less=NAME] program args
 *
 * FILE gets lines of TAB-separated fields:
 *   total  INSNS REPEATS READ WRITTEN PAGES         PAGES of 4,096 bytes were read or written (mem=1)
 *   fn     INSNS CALLS READ WRITTEN COPIES COPYING NAME
 *                                                   COPIES calls of memcpy and its like from here executed COPYING
 *                                                   instructions
 *   call   INSNS READ WRITTEN                       from an entry of the function STEP to its next entry, or to that of
 *                                                   END; in order; without what the function NAME itself executes
 * INSNS counts a `rep movs` once however often it repeats, as a processor's counter does; REPEATS has the repeats.
 * CALLS is how often the lowest executed address of a function was executed. One thread only: the counters are not
 * atomic. */
#include "qemu-plugin-v1.h"
#include <stdio.h>
#include <stdlib.h>
#include <string.h>

QEMU_PLUGIN_EXPORT int qemu_plugin_version = QEMU_PLUGIN_VERSION;

typedef struct rec {
    uint64_t pc, n, rd, wr, repx, last, copies, copying;
    int copier;          /* of memcpy, memmove, memset, or a jump to one */
    int less;            /* of the function that calls are counted without */
    const char *sym;
    struct rec *next;
} rec;

typedef struct { uint64_t n, rd, wr; } counts;
static counts without;

#define BUCKETS 65536
static rec *table[BUCKETS];
static uint64_t clock_, repeats, rd, wr;          /* clock_: every execution, repeats too */
static int want_mem;
static char *outname, *step, *end, *less;

static counts *calls, start;
static size_t made, room;
static int open_;

#define PAGES (1 << 20)
static uint64_t pages[PAGES], npages, lastpage;

static rec *find(uint64_t pc, const char *sym) {
    rec **b = &table[(pc ^ (pc >> 16)) % BUCKETS];
    for (rec *r = *b; r; r = r->next) if (r->pc == pc) return r;
    rec *r = calloc(1, sizeof *r);
    r->pc = pc; r->sym = sym && *sym ? strdup(sym) : "?"; r->last = ~0ull - 1; r->next = *b; *b = r;
    r->copier = !strcmp(r->sym, "?") || strstr(r->sym, "mem") == r->sym || strstr(r->sym, "__mem") == r->sym;
    r->less = less && !strcmp(r->sym, less);
    return r;
}

static void on_mark(unsigned int v, void *u) {
    counts now = { clock_ - repeats - without.n, rd - without.rd, wr - without.wr };
    (void)v;
    if (open_) {
        if (made == room) calls = realloc(calls, (room = room ? room * 2 : 4096) * sizeof *calls);
        calls[made++] = (counts){ now.n - start.n, now.rd - start.rd, now.wr - start.wr };
    }
    start = now;
    open_ = u != NULL;
}

/* A repeat of a string instruction runs the same instruction again, with no other in between. */
static void on_rep(unsigned int v, void *u) {
    rec *r = u;
    (void)v;
    if (r->last + 1 == clock_) r->repx++, repeats++;
    r->last = clock_;
}

static void touch(uint64_t page) {
    size_t at = page * 0x9e3779b97f4a7c15ull >> 44;
    lastpage = page;
    while (pages[at] && pages[at] != page) at = (at + 1) % PAGES;
    if (!pages[at]) pages[at] = page, npages++;
}

static void on_mem(unsigned int v, qemu_plugin_meminfo_t i, uint64_t a, void *u) {
    rec *r = u;
    uint64_t size = 1ull << qemu_plugin_mem_size_shift(i);
    (void)v;
    if (qemu_plugin_mem_is_store(i)) r->wr += size, wr += size, without.wr += r->less * size;
    else r->rd += size, rd += size, without.rd += r->less * size;
    if (a >> 12 != lastpage) touch(a >> 12);
}

static int is_rep(const uint8_t *p, size_t n) {
    int rep = 0;
    size_t i = 0;
    for (; i < n; i++) {
        uint8_t b = p[i];
        if (b == 0xf2 || b == 0xf3) rep = 1;
        else if (b == 0x66 || b == 0x67 || b == 0x2e || b == 0x3e || b == 0x26 || b == 0x64 || b == 0x65 || b == 0x36)
            continue;
        else break;
    }
    if (i < n && (p[i] & 0xf0) == 0x40) i++;      /* REX */
    if (!rep || i >= n) return 0;
    uint8_t o = p[i];
    return (o >= 0xa4 && o <= 0xa7) || (o >= 0xaa && o <= 0xaf);
}

/* At each block: what copiers execute goes to the block that called them. */
static void on_block(unsigned int v, void *u) {
    static rec *caller;
    static uint64_t since;
    rec *r = u;
    (void)v;
    if (r->copier) {
        if (!since && caller) since = clock_, caller->copies++;
        return;
    }
    if (since) caller->copying += clock_ - since;
    since = 0;
    caller = r;
}

/* The first instruction of a name that is translated is the entry of that function. */
static uint64_t step_at = ~0ull, end_at = ~0ull;

static void mark(struct qemu_plugin_insn *in, rec *r) {
    if (step && !strcmp(r->sym, step) && step_at == ~0ull) step_at = r->pc;
    if (end && !strcmp(r->sym, end) && end_at == ~0ull) end_at = r->pc;
    if (r->pc == step_at) qemu_plugin_register_vcpu_insn_exec_cb(in, on_mark, QEMU_PLUGIN_CB_NO_REGS, &step_at);
    if (r->pc == end_at) qemu_plugin_register_vcpu_insn_exec_cb(in, on_mark, QEMU_PLUGIN_CB_NO_REGS, NULL);
}

static void on_tb(qemu_plugin_id_t id, struct qemu_plugin_tb *tb) {
    size_t n = qemu_plugin_tb_n_insns(tb);
    (void)id;
    for (size_t k = 0; k < n; k++) {
        struct qemu_plugin_insn *in = qemu_plugin_tb_get_insn(tb, k);
        rec *r = find(qemu_plugin_insn_vaddr(in), qemu_plugin_insn_symbol(in));
        mark(in, r);
        if (k == 0) qemu_plugin_register_vcpu_insn_exec_cb(in, on_block, QEMU_PLUGIN_CB_NO_REGS, r);
        if (is_rep(qemu_plugin_insn_data(in), qemu_plugin_insn_size(in)))
            qemu_plugin_register_vcpu_insn_exec_cb(in, on_rep, QEMU_PLUGIN_CB_NO_REGS, r);
        qemu_plugin_register_vcpu_insn_exec_inline(in, QEMU_PLUGIN_INLINE_ADD_U64, &r->n, 1);
        qemu_plugin_register_vcpu_insn_exec_inline(in, QEMU_PLUGIN_INLINE_ADD_U64, &clock_, 1);
        if (r->less) qemu_plugin_register_vcpu_insn_exec_inline(in, QEMU_PLUGIN_INLINE_ADD_U64, &without.n, 1);
        if (want_mem)
            qemu_plugin_register_vcpu_mem_cb(in, on_mem, QEMU_PLUGIN_CB_NO_REGS, QEMU_PLUGIN_MEM_RW, r);
    }
}

static int by_name(const void *a, const void *b) {
    const rec *x = *(rec *const *)a, *y = *(rec *const *)b;
    int c = strcmp(x->sym, y->sym);
    return c ? c : (x->pc > y->pc) - (x->pc < y->pc);
}

static void write_functions(FILE *f) {
    size_t m = 0, cap = 0;
    rec **all = NULL;
    for (size_t b = 0; b < BUCKETS; b++)
        for (rec *r = table[b]; r; r = r->next) {
            if (m == cap) all = realloc(all, (cap = cap ? cap * 2 : 4096) * sizeof *all);
            all[m++] = r;
        }
    qsort(all, m, sizeof *all, by_name);
    for (size_t i = 0, j = 0; i < m; i = j) {
        uint64_t n = 0, x = 0, r = 0, w = 0, entries = 0, c = 0, ci = 0;
        for (; j < m && !strcmp(all[j]->sym, all[i]->sym); j++) {
            if (all[j]->n && !entries) entries = all[j]->n - all[j]->repx;
            n += all[j]->n; x += all[j]->repx; r += all[j]->rd; w += all[j]->wr;
            c += all[j]->copies; ci += all[j]->copying;
        }
        fprintf(f, "fn\t%lu\t%lu\t%lu\t%lu\t%lu\t%lu\t%s\n", n - x, entries, r, w, c, ci, all[i]->sym);
    }
}

static void on_exit_(qemu_plugin_id_t id, void *u) {
    (void)id; (void)u;
    FILE *f = outname ? fopen(outname, "w") : stderr;
    if (!f) { perror(outname); return; }
    fprintf(f, "total\t%lu\t%lu\t%lu\t%lu\t%lu\n", clock_ - repeats, repeats, rd, wr, npages);
    write_functions(f);
    for (size_t i = 0; i < made; i++) fprintf(f, "call\t%lu\t%lu\t%lu\n", calls[i].n, calls[i].rd, calls[i].wr);
    if (f != stderr) fclose(f);
}

QEMU_PLUGIN_EXPORT int qemu_plugin_install(qemu_plugin_id_t id, const qemu_info_t *info, int argc, char **argv) {
    (void)info;
    for (int i = 0; i < argc; i++) {
        if (!strncmp(argv[i], "out=", 4)) outname = strdup(argv[i] + 4);
        else if (!strcmp(argv[i], "mem=1") || !strcmp(argv[i], "mem=on")) want_mem = 1;
        else if (!strncmp(argv[i], "less=", 5)) less = strdup(argv[i] + 5);
        else if (!strncmp(argv[i], "mark=", 5)) {
            step = strdup(argv[i] + 5);
            end = strchr(step, '+');
            if (end) *end++ = 0;
        } else { fprintf(stderr, "icount: unknown option %s\n", argv[i]); return -1; }
    }
    qemu_plugin_register_vcpu_tb_trans_cb(id, on_tb);
    qemu_plugin_register_atexit_cb(id, on_exit_, NULL);
    return 0;
}
