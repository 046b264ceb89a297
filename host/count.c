/* A plugin for Debian's user-mode emulator that counts the guest's instructions exactly.
 *
 * The guest marks a place by a system call that no kernel knows; at each mark the count so far is written as a line to
 * the file given as `notes=FILE`. The emulator's package brings no header, so what is used of its interface (version 1)
 * is declared here. */
#include <inttypes.h>
#include <stddef.h>
#include <stdio.h>
#include <string.h>

#define MARK 19777

struct qemu_plugin_tb;

enum { ADD_U64 = 0 };

typedef void (*on_translated)(uint64_t id, struct qemu_plugin_tb *block);
typedef void (*on_syscall)(uint64_t id, unsigned vcpu, int64_t number, uint64_t, uint64_t, uint64_t, uint64_t, uint64_t,
                           uint64_t, uint64_t, uint64_t);

void qemu_plugin_register_vcpu_tb_trans_cb(uint64_t id, on_translated);
void qemu_plugin_register_vcpu_syscall_cb(uint64_t id, on_syscall);
void qemu_plugin_register_vcpu_tb_exec_inline(struct qemu_plugin_tb *, int operation, void *counter, uint64_t by);
void qemu_plugin_register_atexit_cb(uint64_t id, void (*)(uint64_t id, void *), void *);
size_t qemu_plugin_tb_n_insns(const struct qemu_plugin_tb *);

__attribute__((visibility("default"))) int qemu_plugin_version = 1;

static uint64_t instructions;
static FILE *notes;

static void translated(uint64_t id, struct qemu_plugin_tb *block) {
    (void)id;
    qemu_plugin_register_vcpu_tb_exec_inline(block, ADD_U64, &instructions, qemu_plugin_tb_n_insns(block));
}

static void called(uint64_t id, unsigned vcpu, int64_t number, uint64_t a, uint64_t b, uint64_t c, uint64_t d, uint64_t e,
                   uint64_t f, uint64_t g, uint64_t h) {
    (void)id, (void)vcpu, (void)a, (void)b, (void)c, (void)d, (void)e, (void)f, (void)g, (void)h;
    if (number == MARK)
        fprintf(notes, "%" PRIu64 "\n", instructions);
}

static void ended(uint64_t id, void *unused) {
    (void)id, (void)unused;
    fclose(notes);
}

__attribute__((visibility("default"))) int qemu_plugin_install(uint64_t id, const void *info, int count, char **given) {
    (void)info;
    if (count != 1 || strncmp(given[0], "notes=", 6) != 0 || !(notes = fopen(given[0] + 6, "w")))
        return -1;
    qemu_plugin_register_vcpu_tb_trans_cb(id, translated);
    qemu_plugin_register_vcpu_syscall_cb(id, called);
    qemu_plugin_register_atexit_cb(id, ended, NULL);
    return 0;
}
