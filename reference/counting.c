/*
 * A plugin for qemu-user that counts the instructions which the emulated program executes, and writes the number to the file that its argument
 * `to=FILE` names. Of qemu's interface (version 1) it declares just what it uses, for Debian's package brings no header.
 */
#include <stdint.h>
#include <stdio.h>
#include <string.h>

struct qemu_plugin_tb;

size_t qemu_plugin_tb_n_insns(const struct qemu_plugin_tb *block);
void qemu_plugin_register_vcpu_tb_trans_cb(uint64_t id, void (*translated)(uint64_t id, struct qemu_plugin_tb *block));
void qemu_plugin_register_vcpu_tb_exec_inline(struct qemu_plugin_tb *block, int add, void *to, uint64_t number);
void qemu_plugin_register_atexit_cb(uint64_t id, void (*at_exit)(uint64_t id, void *data), void *data);

int qemu_plugin_version = 1;

static uint64_t executed;
static char file[4096];

/* Each time that a block runs, its instructions are added. */
static void translated(uint64_t id, struct qemu_plugin_tb *block)
{
    (void)id;
    qemu_plugin_register_vcpu_tb_exec_inline(block, 0, &executed, qemu_plugin_tb_n_insns(block));
}

static void at_exit(uint64_t id, void *data)
{
    FILE *out = fopen(file, "w");

    (void)id;
    (void)data;
    if (out != NULL) {
        fprintf(out, "%llu\n", (unsigned long long)executed);
        fclose(out);
    }
}

int qemu_plugin_install(uint64_t id, const void *info, int argc, char **argv)
{
    (void)info;
    if (argc != 1 || strncmp(argv[0], "to=", 3) != 0 || strlen(argv[0] + 3) >= sizeof file)
        return -1;
    strcpy(file, argv[0] + 3);
    qemu_plugin_register_vcpu_tb_trans_cb(id, translated);
    qemu_plugin_register_atexit_cb(id, at_exit, NULL);
    return 0;
}
