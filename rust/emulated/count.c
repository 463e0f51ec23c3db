/* A plugin for QEMU's user emulation, version 7.2 (plugin interface 1), which
 * counts the instructions that the emulated program executes. The count is
 * kept in a file of 8 bytes that the emulated program maps too, so that it can
 * read at any time how many instructions it has executed:
 *
 *   qemu-x86_64 -plugin count.so,count=FILE program FILE
 *
 * A block of code counts as a whole when it is entered. Each repetition of a
 * repeated string instruction counts as one. The emulator's header is in no
 * Debian package, so what is used of it is declared here. */

#include <fcntl.h>
#include <stdint.h>
#include <stdio.h>
#include <string.h>
#include <sys/mman.h>
#include <unistd.h>

struct qemu_plugin_tb;
typedef uint64_t qemu_plugin_id_t;
enum { ADD_U64 = 0 };
void qemu_plugin_register_vcpu_tb_trans_cb(qemu_plugin_id_t id,
                                           void (*translated)(qemu_plugin_id_t, struct qemu_plugin_tb *));
size_t qemu_plugin_tb_n_insns(const struct qemu_plugin_tb *block);
void qemu_plugin_register_vcpu_tb_exec_inline(struct qemu_plugin_tb *block, int operation, void *to,
                                              uint64_t number);

#define EXPORTED __attribute__((visibility("default")))

EXPORTED int qemu_plugin_version = 1;

static uint64_t *count;

static void translated(qemu_plugin_id_t id, struct qemu_plugin_tb *block) {
    (void)id;
    qemu_plugin_register_vcpu_tb_exec_inline(block, ADD_U64, count, qemu_plugin_tb_n_insns(block));
}

EXPORTED int qemu_plugin_install(qemu_plugin_id_t id, const void *info, int argc, char **argv) {
    (void)info;
    if (argc != 1 || strncmp(argv[0], "count=", 6) != 0) {
        fprintf(stderr, "count: usage: -plugin count.so,count=FILE\n");
        return 1;
    }
    int file = open(argv[0] + 6, O_RDWR | O_CREAT | O_TRUNC, 0666);
    if (file < 0 || ftruncate(file, 8) != 0) {
        perror(argv[0] + 6);
        return 1;
    }
    count = mmap(0, 8, PROT_READ | PROT_WRITE, MAP_SHARED, file, 0);
    if (count == MAP_FAILED) {
        perror(argv[0] + 6);
        return 1;
    }
    close(file);
    qemu_plugin_register_vcpu_tb_trans_cb(id, translated);
    return 0;
}
