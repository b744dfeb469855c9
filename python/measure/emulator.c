/* A plugin of qemu-user (API 1, of QEMU 7.2 on): each transfer of control, each access to memory, and each system call of a run.

   The API's header isn't packaged, so what is used of it is declared here. A block of qemu ends where control may be transferred, at the end of a page, or
   where it grows too long. Of each block it is known where it ends; if control goes on elsewhere, and its last instruction isn't one that transfers
   control, something was lost. */
#define _GNU_SOURCE
#include <stdbool.h>
#include <stdint.h>
#include <stdio.h>
#include <stdlib.h>
#include <string.h>
#include <sys/uio.h>
#include <unistd.h>
#include "monitor.h"

typedef uint64_t qemu_plugin_id_t;
typedef uint32_t qemu_plugin_meminfo_t;
struct qemu_plugin_tb;
struct qemu_plugin_insn;
typedef void (*at_execution)(unsigned vcpu, void *data);
typedef void (*at_access)(unsigned vcpu, qemu_plugin_meminfo_t info, uint64_t address, void *data);
typedef void (*at_call)(qemu_plugin_id_t id, unsigned vcpu, int64_t number, uint64_t a, uint64_t b, uint64_t c, uint64_t d, uint64_t e, uint64_t f,
                        uint64_t g, uint64_t h);
typedef void (*at_answer)(qemu_plugin_id_t id, unsigned vcpu, int64_t number, int64_t result);
void qemu_plugin_register_vcpu_tb_trans_cb(qemu_plugin_id_t, void (*)(qemu_plugin_id_t, struct qemu_plugin_tb *));
void qemu_plugin_register_vcpu_tb_exec_cb(struct qemu_plugin_tb *, at_execution, int flags, void *data);
void qemu_plugin_register_vcpu_insn_exec_cb(struct qemu_plugin_insn *, at_execution, int flags, void *data);
void qemu_plugin_register_vcpu_mem_cb(struct qemu_plugin_insn *, at_access, int flags, int which, void *data);
void qemu_plugin_register_vcpu_syscall_cb(qemu_plugin_id_t, at_call);
void qemu_plugin_register_vcpu_syscall_ret_cb(qemu_plugin_id_t, at_answer);
size_t qemu_plugin_tb_n_insns(const struct qemu_plugin_tb *);
uint64_t qemu_plugin_tb_vaddr(const struct qemu_plugin_tb *);
struct qemu_plugin_insn *qemu_plugin_tb_get_insn(const struct qemu_plugin_tb *, size_t);
uint64_t qemu_plugin_insn_vaddr(const struct qemu_plugin_insn *);
const void *qemu_plugin_insn_data(const struct qemu_plugin_insn *);
size_t qemu_plugin_insn_size(const struct qemu_plugin_insn *);
unsigned qemu_plugin_mem_size_shift(qemu_plugin_meminfo_t);
bool qemu_plugin_mem_is_store(qemu_plugin_meminfo_t);
#define EXPORTED __attribute__((visibility("default")))
EXPORTED int qemu_plugin_version = 1;

#define NO_REGISTERS 0
#define BOTH_WAYS 3

enum meaning { PLAIN, JUMPS, CALLS, RETURNS, REPEATS, DIVIDES, READS_CLOCK, READS_RANDOM };
struct block { uint64_t pc, last, end; uint32_t count, last_size; enum meaning ends; };

static struct kf_control *control;
static int repeats; /* the last block was a repeated instruction, and is executed again: it may only find that nothing is left to do */
static const struct block *previous; /* the block that was executed last in this run; none at its beginning and after hidden code */
static struct kf_machine machine;

/* ---- instructions */

static enum meaning of_arm(uint32_t w)
{
    if ((w & 0xfc000000u) == 0x94000000u || (w & 0xffe0fc00u) == 0xd6200000u)
        return CALLS;
    if ((w & 0xffe0fc00u) == 0xd6400000u)
        return RETURNS;
    if ((w & 0xfc000000u) == 0x14000000u || (w & 0xff000000u) == 0x54000000u || (w & 0x7c000000u) == 0x34000000u || (w & 0xfe000000u) == 0xd6000000u)
        return JUMPS;
    if ((w & 0x7fe0f800u) == 0x1ac00800u)
        return DIVIDES;
    if ((w & 0xffffffe0u) == 0xd53be040u || (w & 0xffffffe0u) == 0xd53be020u)
        return READS_CLOCK;
    return PLAIN;
}

/* The prefixes of an instruction but for those of repetition: sizes, segments, and lock. */
static int is_prefix(uint8_t byte)
{
    static const uint8_t PREFIXES[] = {0x66, 0x67, 0x2e, 0x36, 0x3e, 0x26, 0x64, 0x65, 0xf0};
    return memchr(PREFIXES, byte, sizeof PREFIXES) != 0;
}

static int is_repetition(uint8_t byte) { return byte == 0xf2 || byte == 0xf3; }

static enum meaning of_two_bytes(const uint8_t *code, size_t size)
{
    if (code[1] >= 0x80 && code[1] <= 0x8f)
        return JUMPS;
    if (code[1] == 0x31 || (code[1] == 0x01 && size > 2 && code[2] == 0xf9))
        return READS_CLOCK;
    if (code[1] == 0xc7 && size > 2 && code[2] >= 0xf0)
        return READS_RANDOM;
    return PLAIN;
}

static enum meaning of_intel(const uint8_t *code, size_t size)
{
    int repeated = 0;
    for (; size > 1; code++, size--) {
        if (is_repetition(*code))
            repeated = 1;
        else if (!is_prefix(*code))
            break;
    }
    if ((*code & 0xf0) == 0x40 && size > 1)
        code++, size--;
    if (*code == 0xe8)
        return CALLS;
    if (*code == 0xc3 || *code == 0xc2)
        return RETURNS;
    if (*code == 0xe9 || *code == 0xeb || (*code >= 0x70 && *code <= 0x7f) || (*code >= 0xe0 && *code <= 0xe3))
        return JUMPS;
    if (*code == 0xff && size > 1 && (code[1] >> 3 & 7) >= 2 && (code[1] >> 3 & 7) <= 5)
        return (code[1] >> 3 & 7) <= 3 ? CALLS : JUMPS;
    if ((*code == 0xf6 || *code == 0xf7) && size > 1 && (code[1] >> 3 & 7) >= 6)
        return DIVIDES;
    if (repeated && ((*code >= 0xa4 && *code <= 0xa7) || (*code >= 0xaa && *code <= 0xaf)))
        return REPEATS;
    return *code == 0x0f && size > 1 ? of_two_bytes(code, size) : PLAIN;
}

static enum meaning meaning_of(const struct qemu_plugin_insn *instruction)
{
    uint8_t code[16] = {0};
    size_t size = qemu_plugin_insn_size(instruction);
    uint32_t word;
    memcpy(code, qemu_plugin_insn_data(instruction), size < sizeof code ? size : sizeof code);
    memcpy(&word, code, 4);
    return machine.is_arm ? of_arm(word) : of_intel(code, size);
}

/* Does it read and write memory at once? QEMU reports such an access as a store alone. */
static int is_atomic(const struct qemu_plugin_insn *instruction)
{
    const uint8_t *code = qemu_plugin_insn_data(instruction);
    size_t size = qemu_plugin_insn_size(instruction);
    uint32_t w = 0;
    if (machine.is_arm) {
        memcpy(&w, code, size < 4 ? size : 4);
        return (w & 0x3f200c00u) == 0x38200000u || (w & 0x3fa07c00u) == 0x08a07c00u;
    }
    int is_locked = 0;
    for (; size > 1 && (is_prefix(*code) || is_repetition(*code)); code++, size--)
        is_locked |= *code == 0xf0;
    if ((*code & 0xf0) == 0x40 && size > 1)
        code++, size--;
    return is_locked || (size > 1 && (*code == 0x86 || *code == 0x87) && code[1] < 0xc0); /* or it exchanges */
}

/* How many bytes a fused multiplication of single numbers reads: 4 or 8, and 0 of other instructions. QEMU 7.2 reads 16, in two halves. */
static uint32_t size_of_fused(const struct qemu_plugin_insn *instruction)
{
    const uint8_t *code = qemu_plugin_insn_data(instruction);
    size_t size = qemu_plugin_insn_size(instruction);
    while (size > 4 && is_prefix(*code))
        code++, size--;
    if (machine.is_arm || size < 5 || code[0] != 0xc4 || (code[1] & 0x1f) != 2 || (code[2] & 3) != 1)
        return 0;
    int is_single = code[3] >= 0x98 && code[3] <= 0xbf && (code[3] & 15) >= 9 && (code[3] & 1);
    return is_single ? (code[2] & 0x80 ? 8 : 4) : 0;
}

/* ---- what is executed */

static int is_hidden(uint64_t pc) { return pc >= control->hidden && pc < control->hidden_end; }

/* QEMU lists an instruction that goes on in the next page as the last of a block, with some of its bytes, and begins the next block with it. */
static int is_listed_twice(const struct block *from, uint64_t to)
{
    return to == from->last && from->count > 1 && from->last / 4096 != (from->last + 14) / 4096 && from->ends != REPEATS;
}

static void follow(const struct block *from, uint64_t to)
{
    static const enum kf_way WAYS[] = {[JUMPS] = KF_JUMP, [CALLS] = KF_CALLS, [RETURNS] = KF_RETURNS, [REPEATS] = KF_REPEATS};
    if (from->ends == REPEATS && to == from->last) {
        repeats = 1;
        return;
    }
    if (is_listed_twice(from, to) || repeats)
        kf_count(-1, to);
    repeats = 0;
    if (is_listed_twice(from, to))
        return;
    if (from->ends >= JUMPS && from->ends <= REPEATS)
        kf_transfer(from->last, from->last_size, WAYS[from->ends], to);
    else if (from->end != to)
        kf_refuse("Lost", from->last, "control goes on elsewhere after an instruction that doesn't transfer it, so that events were lost");
}

static void at_block(unsigned vcpu, void *data)
{
    const struct block *block = data;
    if (!control)
        return;
    if (vcpu != 0)
        kf_refuse("Threads", block->pc, "another thread runs");
    if (!kf_on) {
        if (block->pc != control->go)
            return;
        kf_on = 1;
        previous = 0;
        repeats = 0;
    } else if (block->pc == control->crash_handler) {
        kf_on = 0;
        return;
    }
    if (previous)
        follow(previous, block->pc);
    if (block->pc == control->back) {
        kf_on = 0;
        return;
    }
    if (is_hidden(block->pc)) {
        previous = 0;
        return;
    }
    kf_count(block->count, block->pc);
    previous = block;
}

static void at_memory(unsigned vcpu, qemu_plugin_meminfo_t info, uint64_t address, void *data)
{
    (void)vcpu;
    if (!kf_on || !previous)
        return;
    if (repeats) {
        kf_transfer(previous->last, previous->last_size, KF_REPEATS, previous->last);
        repeats = 0;
    }
    kf_memory(qemu_plugin_mem_is_store(info) ? KF_STORE : KF_LOAD, 1u << qemu_plugin_mem_size_shift(info), (uint64_t)(uintptr_t)data, address);
}

static void at_atomic(unsigned vcpu, qemu_plugin_meminfo_t info, uint64_t address, void *data)
{
    if (kf_on && previous && qemu_plugin_mem_is_store(info))
        kf_memory(KF_LOAD, 1u << qemu_plugin_mem_size_shift(info), (uint64_t)(uintptr_t)data, address);
    at_memory(vcpu, info, address, data);
}

/* Of the first half as much as is read, and nothing of the second. */
static void at_fused(uint32_t size, uint64_t address, uint64_t pc)
{
    static uint64_t first_pc, first_address;
    if (!kf_on || !previous)
        return;
    if (pc == first_pc && address == first_address + 8) {
        first_pc = 0;
        return;
    }
    first_pc = pc;
    first_address = address;
    kf_memory(KF_LOAD, size, pc, address);
}

static void at_fused_4(unsigned vcpu, qemu_plugin_meminfo_t info, uint64_t address, void *data)
{
    (void)vcpu, (void)info;
    at_fused(4, address, (uint64_t)(uintptr_t)data);
}

static void at_fused_8(unsigned vcpu, qemu_plugin_meminfo_t info, uint64_t address, void *data)
{
    (void)vcpu, (void)info;
    at_fused(8, address, (uint64_t)(uintptr_t)data);
}

static at_access access_of(const struct qemu_plugin_insn *instruction)
{
    uint32_t fused = size_of_fused(instruction);
    return fused ? (fused == 4 ? at_fused_4 : at_fused_8) : is_atomic(instruction) ? at_atomic : at_memory;
}

static void at_division(unsigned vcpu, void *data)
{
    (void)vcpu;
    if (kf_on)
        kf_plain(KF_DIVISION, 0, (uint64_t)(uintptr_t)data, 0);
}

static void at_clock(unsigned vcpu, void *data)
{
    (void)vcpu;
    if (kf_on)
        kf_forbid("Clock", (uint64_t)(uintptr_t)data, "the processor's clock is read");
}

static void at_random(unsigned vcpu, void *data)
{
    (void)vcpu;
    if (kf_on)
        kf_forbid("Random", (uint64_t)(uintptr_t)data, "the processor draws a random number: declare it as KUIFJE_NOISE");
}

static void translated(qemu_plugin_id_t id, struct qemu_plugin_tb *tb)
{
    size_t count = qemu_plugin_tb_n_insns(tb);
    struct block *block = malloc(sizeof *block);
    struct qemu_plugin_insn *last = qemu_plugin_tb_get_insn(tb, count - 1);
    (void)id;
    if (!block)
        _exit(5);
    block->pc = qemu_plugin_tb_vaddr(tb);
    block->last = qemu_plugin_insn_vaddr(last);
    block->last_size = (uint32_t)qemu_plugin_insn_size(last);
    block->end = block->last + block->last_size;
    block->count = (uint32_t)count;
    block->ends = meaning_of(last);
    qemu_plugin_register_vcpu_tb_exec_cb(tb, at_block, NO_REGISTERS, block);
    if (control && is_hidden(block->pc))
        return;
    for (size_t i = 0; i < count; i++) {
        struct qemu_plugin_insn *one = qemu_plugin_tb_get_insn(tb, i);
        void *pc = (void *)(uintptr_t)qemu_plugin_insn_vaddr(one);
        enum meaning meaning = meaning_of(one);
        if (meaning >= DIVIDES)
            qemu_plugin_register_vcpu_insn_exec_cb(one, meaning == DIVIDES ? at_division : meaning == READS_CLOCK ? at_clock : at_random, NO_REGISTERS, pc);
        qemu_plugin_register_vcpu_mem_cb(one, access_of(one), NO_REGISTERS, BOTH_WAYS, pc);
    }
}

/* ---- system calls, and what the driver asks */

/* The measured process's memory stands in the emulator's at the same addresses, or the driver's own block would not be found there. */
static void meet(uint64_t address)
{
    struct kf_control found;
    struct iovec here = {&found, sizeof found}, there = {(void *)(uintptr_t)address, sizeof found};
    if (process_vm_readv(getpid(), &here, 1, &there, 1, 0) != (ssize_t)sizeof found || found.stop != 2 || found.stack_size == 0) {
        fprintf(stderr, "the emulator keeps memory elsewhere than it says\n");
        _exit(5);
    }
    control = (struct kf_control *)(uintptr_t)address;
}

static void called(qemu_plugin_id_t id, unsigned vcpu, int64_t number, uint64_t a, uint64_t b, uint64_t c, uint64_t d, uint64_t e, uint64_t f, uint64_t g,
                   uint64_t h)
{
    (void)id, (void)vcpu, (void)g, (void)h;
    if (number == (int64_t)KF_CALL) {
        if (a == KF_NEXT && !control)
            meet(b);
        if (a == KF_NEXT)
            kf_next(control);
        else if (kf_on && a == KF_OBSERVED)
            kf_observed(b, d);
        else if (kf_on && a == KF_OBSERVED_BYTES)
            kf_observed_bytes(b, c, d);
    } else if (kf_on && previous)
        kf_system_call(previous->last, (uint64_t)number, (const uint64_t[]){a, b, c, d, e, f});
}

static void answered(qemu_plugin_id_t id, unsigned vcpu, int64_t number, int64_t result)
{
    (void)id, (void)vcpu;
    if (kf_on && previous && number != (int64_t)KF_CALL)
        kf_system_answer(previous->last, (uint64_t)number, (uint64_t)result);
}

EXPORTED int qemu_plugin_install(qemu_plugin_id_t id, const void *info, int count, char **words)
{
    (void)count, (void)words;
    machine.name = strdup(*(const char *const *)info);
    machine.is_arm = !strcmp(machine.name, "aarch64");
    if (!kf_start("emulator", &machine, 0))
        return 1;
    qemu_plugin_register_vcpu_tb_trans_cb(id, translated);
    qemu_plugin_register_vcpu_syscall_cb(id, called);
    qemu_plugin_register_vcpu_syscall_ret_cb(id, answered);
    return 0;
}
