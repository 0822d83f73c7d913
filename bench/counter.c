/* A plugin for qemu that counts the instructions which a program runs, each at its address: nothing is timed, so the figures do not
 * depend on the host's speed. At the end it writes 'address count' lines to the file in out=FILE.
 * Debian's qemu 7.2 takes plugins but has no qemu-plugin.h, so the calls that are used are declared here (plugin interface, version 1). */
#include <inttypes.h>
#include <stdint.h>
#include <stdio.h>
#include <stdlib.h>
#include <string.h>

struct qemu_plugin_tb;
struct qemu_plugin_insn;
typedef uint64_t plugin_id;
enum { QEMU_PLUGIN_INLINE_ADD_U64 = 0 };
void qemu_plugin_register_vcpu_tb_trans_cb(plugin_id, void (*)(plugin_id, struct qemu_plugin_tb *));
void qemu_plugin_register_atexit_cb(plugin_id, void (*)(plugin_id, void *), void *);
void qemu_plugin_register_vcpu_insn_exec_inline(struct qemu_plugin_insn *, int, void *, uint64_t);
size_t qemu_plugin_tb_n_insns(const struct qemu_plugin_tb *);
struct qemu_plugin_insn *qemu_plugin_tb_get_insn(const struct qemu_plugin_tb *, size_t);
uint64_t qemu_plugin_insn_vaddr(const struct qemu_plugin_insn *);

#define SEEN __attribute__((visibility("default")))
SEEN int qemu_plugin_version = 1;

/* qemu adds to `count` itself, so a place must stay where it is: they are allotted one by one. */
struct place {
    uint64_t address, count;
    struct place *before;
};
static struct place *places;
static const char *out;

/* An instruction may be translated more than once, and then has more than one line. */
static void translated(plugin_id id, struct qemu_plugin_tb *block)
{
    for (size_t i = 0; i < qemu_plugin_tb_n_insns(block); i++) {
        struct qemu_plugin_insn *instruction = qemu_plugin_tb_get_insn(block, i);
        struct place *place = calloc(1, sizeof *place);
        if (!place)
            abort();
        place->address = qemu_plugin_insn_vaddr(instruction);
        place->before = places;
        places = place;
        qemu_plugin_register_vcpu_insn_exec_inline(instruction, QEMU_PLUGIN_INLINE_ADD_U64, &place->count, 1);
    }
}

static void ended(plugin_id id, void *unused)
{
    FILE *file = fopen(out, "w");
    if (!file)
        abort();
    for (struct place *place = places; place; place = place->before)
        fprintf(file, "%" PRIx64 " %" PRIu64 "\n", place->address, place->count);
    fclose(file);
}

SEEN int qemu_plugin_install(plugin_id id, const void *info, int argc, char **argv)
{
    for (int i = 0; i < argc; i++)
        if (!strncmp(argv[i], "out=", 4))
            out = strdup(argv[i] + 4);
    if (!out)
        return 1;
    qemu_plugin_register_vcpu_tb_trans_cb(id, translated);
    qemu_plugin_register_atexit_cb(id, ended, 0);
    return 0;
}
