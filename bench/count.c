/*
 * A plugin for qemu's user-mode emulator: counts the instructions that a program executes, and prints 'instructions N' on standard
 * error when it exits. The same program on the same input gives the same number on every run, however busy the machine is.
 *
 * Debian's qemu-user comes without the header for plugins, so the part of version 1 of that interface that is used is declared here.
 */
#include <inttypes.h>
#include <stddef.h>
#include <stdint.h>
#include <stdio.h>

typedef uint64_t plugin_id;
struct qemu_info;
struct qemu_plugin_tb; /* a block of instructions, translated once */
struct qemu_plugin_insn;

void qemu_plugin_register_vcpu_tb_trans_cb(plugin_id id, void (*on_translation)(plugin_id, struct qemu_plugin_tb *));
size_t qemu_plugin_tb_n_insns(const struct qemu_plugin_tb *block);
struct qemu_plugin_insn *qemu_plugin_tb_get_insn(const struct qemu_plugin_tb *block, size_t place);
void qemu_plugin_register_vcpu_insn_exec_inline(struct qemu_plugin_insn *instruction, int operation, void *counter, uint64_t operand);
void qemu_plugin_register_atexit_cb(plugin_id id, void (*on_exit)(plugin_id, void *), void *argument);

enum { ADD = 0 };

extern int qemu_plugin_version;
int qemu_plugin_version = 1;

static uint64_t instructions;

/*
 * From now on, each instruction of the block adds 1 when it is executed. Adding one number for the whole block would be less work, but
 * wrong: if a block ends because the next instruction crosses a page, qemu 7.2 counts that instruction too.
 */
static void on_translation(plugin_id id, struct qemu_plugin_tb *block)
{
    size_t count = qemu_plugin_tb_n_insns(block);
    (void)id;
    for (size_t place = 0; place < count; place++) {
        qemu_plugin_register_vcpu_insn_exec_inline(qemu_plugin_tb_get_insn(block, place), ADD, &instructions, 1);
    }
}

static void on_exit_say(plugin_id id, void *argument)
{
    (void)id;
    (void)argument;
    fprintf(stderr, "instructions %" PRIu64 "\n", instructions);
}

int qemu_plugin_install(plugin_id id, const struct qemu_info *info, int count, char **words);
int qemu_plugin_install(plugin_id id, const struct qemu_info *info, int count, char **words)
{
    (void)info;
    (void)count;
    (void)words;
    qemu_plugin_register_vcpu_tb_trans_cb(id, on_translation);
    qemu_plugin_register_atexit_cb(id, on_exit_say, NULL);
    return 0;
}
