/* A plugin for the emulator of Debian 12 (qemu-user 7.2, plugin API 1): counts the instructions that a program runs, in all and by function.
   When the program ends, the counts go to the file that INSN_OUT names: 'insns TOTAL' first, then 'COUNT FUNCTION' for each function that ran,
   the largest first. '?' is code of libraries that have no symbols. The few declarations used are written out here, so that no header of qemu is needed. */
#include <stdint.h>
#include <stdio.h>
#include <stdlib.h>
#include <string.h>

typedef uint64_t qemu_plugin_id_t;
struct qemu_plugin_tb;
struct qemu_plugin_insn;
typedef struct qemu_info_t qemu_info_t;
enum qemu_plugin_op { QEMU_PLUGIN_INLINE_ADD_U64 };
int qemu_plugin_version = 1;
extern void qemu_plugin_register_vcpu_tb_trans_cb(qemu_plugin_id_t, void (*)(qemu_plugin_id_t, struct qemu_plugin_tb *));
extern void qemu_plugin_register_atexit_cb(qemu_plugin_id_t, void (*)(qemu_plugin_id_t, void *), void *);
extern size_t qemu_plugin_tb_n_insns(const struct qemu_plugin_tb *);
extern struct qemu_plugin_insn *qemu_plugin_tb_get_insn(const struct qemu_plugin_tb *, size_t);
extern const char *qemu_plugin_insn_symbol(const struct qemu_plugin_insn *);
extern void qemu_plugin_register_vcpu_insn_exec_inline(struct qemu_plugin_insn *, enum qemu_plugin_op, void *, uint64_t);

#define HEADS 4096
#define MOST 65536

struct row {
    char *name;
    uint64_t n;
    struct row *next;
};

static struct row *heads[HEADS];

static struct row *row_of(const char *name) {
    unsigned hash = 5381;
    for (const char *p = name; *p; p++) hash = hash * 33 + (unsigned char)*p;
    struct row **at = &heads[hash % HEADS];
    for (; *at; at = &(*at)->next) {
        if (!strcmp((*at)->name, name)) return *at;
    }
    *at = calloc(1, sizeof **at);
    (*at)->name = strdup(name);
    return *at;
}

/* Each instruction adds one to its function's row, without a call. */
static void translated(qemu_plugin_id_t id, struct qemu_plugin_tb *block) {
    size_t n = qemu_plugin_tb_n_insns(block);
    for (size_t i = 0; i < n; i++) {
        struct qemu_plugin_insn *insn = qemu_plugin_tb_get_insn(block, i);
        const char *name = qemu_plugin_insn_symbol(insn);
        qemu_plugin_register_vcpu_insn_exec_inline(insn, QEMU_PLUGIN_INLINE_ADD_U64, &row_of(name && *name ? name : "?")->n, 1);
    }
}

static int larger(const void *a, const void *b) {
    uint64_t x = (*(struct row *const *)a)->n, y = (*(struct row *const *)b)->n;
    return x < y ? 1 : x > y ? -1 : 0;
}

static void ended(qemu_plugin_id_t id, void *unused) {
    static struct row *all[MOST];
    size_t n = 0;
    uint64_t sum = 0;
    for (int i = 0; i < HEADS; i++) {
        for (struct row *r = heads[i]; r; r = r->next) {
            sum += r->n;
            if (r->n && n < MOST) all[n++] = r;
        }
    }
    qsort(all, n, sizeof *all, larger);
    const char *path = getenv("INSN_OUT");
    FILE *out = path ? fopen(path, "w") : stderr;
    if (!out) return;
    fprintf(out, "insns %llu\n", (unsigned long long)sum);
    for (size_t i = 0; i < n; i++) fprintf(out, "%llu %s\n", (unsigned long long)all[i]->n, all[i]->name);
    fflush(out);
}

int qemu_plugin_install(qemu_plugin_id_t id, const qemu_info_t *info, int argc, char **argv) {
    qemu_plugin_register_vcpu_tb_trans_cb(id, translated);
    qemu_plugin_register_atexit_cb(id, ended, NULL);
    return 0;
}
