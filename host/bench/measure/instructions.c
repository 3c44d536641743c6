/* A plugin of the emulator qemu-x86_64: writes to the emulator's log how many instructions the program has executed.
   What it uses of the emulator is declared here, as qemu 7.2 has it, since Debian has no package with the header. */
#include <inttypes.h>
#include <stddef.h>
#include <stdio.h>

typedef uint64_t plugin_id;
struct qemu_plugin_tb;
enum qemu_plugin_op { ADD };

size_t qemu_plugin_tb_n_insns(const struct qemu_plugin_tb *block);
void qemu_plugin_outs(const char *text);
void qemu_plugin_register_atexit_cb(plugin_id id, void (*call)(plugin_id, void *), void *with);
void qemu_plugin_register_vcpu_tb_exec_inline(struct qemu_plugin_tb *block, enum qemu_plugin_op op, void *to, uint64_t number);
void qemu_plugin_register_vcpu_tb_trans_cb(plugin_id id, void (*call)(plugin_id, struct qemu_plugin_tb *));

int qemu_plugin_version = 1;
int qemu_plugin_install(plugin_id id, const void *emulator, int count, char **words);

static uint64_t executed;

/* Whenever this block of code is run, its instructions are added. */
static void translated(plugin_id id, struct qemu_plugin_tb *block) {
    (void)id;
    qemu_plugin_register_vcpu_tb_exec_inline(block, ADD, &executed, qemu_plugin_tb_n_insns(block));
}

static void ended(plugin_id id, void *with) {
    (void)id;
    (void)with;
    char text[32];
    snprintf(text, sizeof text, "%" PRIu64 "\n", executed);
    qemu_plugin_outs(text);
}

int qemu_plugin_install(plugin_id id, const void *emulator, int count, char **words) {
    (void)emulator;
    (void)count;
    (void)words;
    qemu_plugin_register_vcpu_tb_trans_cb(id, translated);
    qemu_plugin_register_atexit_cb(id, ended, NULL);
    return 0;
}
