/* The processor itself, one instruction at a time: its trap flag gives a signal after each, and Zydis says what the next one will access.

   A division's operands are recorded, too, which no plugin of the emulator sees. Where they alone are wanted, the program runs at its own speed, with
   a breakpoint at each division: its first byte is another one, which is put back for one step. */
#define _GNU_SOURCE
#include <Zydis/Zydis.h>
#include <signal.h>
#include <stdio.h>
#include <stdlib.h>
#include <string.h>
#include <sys/mman.h>
#include <ucontext.h>
#include <unistd.h>
#include "monitor.h"

#define SLOTS ((size_t)1 << 18)
#define OPERANDS 4
#define TRAP_FLAG 0x100
#define NOT_FOLLOWED (-2)
#define MOST_BREAKPOINTS 4096
#define BREAKPOINT 0xcc

enum meaning { PLAIN, JUMPS, CALLS, RETURNS, REPEATS, ASKS_SYSTEM };
struct operand { int base, index, scale, reads, writes; uint32_t size; int64_t displacement; };
struct instruction {
    uint64_t pc;
    enum meaning meaning;
    uint32_t length;
    int count, divides, divisor, divisor_size;
    int64_t divisor_shift;
    const char *refused, *why;
    struct operand operands[OPERANDS];
};

struct breakpoint { uint8_t *at, byte; };

struct stepper {
    struct kf_control *control;
    struct instruction instructions[SLOTS], *previous;
    ZydisDecoder decoder;
    char stack[1 << 18];
    uint64_t system_number;
    int is_dividing;
    struct breakpoint breakpoints[MOST_BREAKPOINTS];
    size_t breakpoint_count;
    struct breakpoint *open; /* whose instruction is being stepped over */
};
static struct stepper *s;

/* ---- instructions */

static int number_of(ZydisRegister name)
{
    static const int NUMBERS[16] = {REG_RAX, REG_RCX, REG_RDX, REG_RBX, REG_RSP, REG_RBP, REG_RSI, REG_RDI,
                                    REG_R8,  REG_R9,  REG_R10, REG_R11, REG_R12, REG_R13, REG_R14, REG_R15};
    if (name == ZYDIS_REGISTER_NONE)
        return -1;
    if (name == ZYDIS_REGISTER_RIP)
        return REG_RIP;
    switch (ZydisRegisterGetClass(name)) {
    case ZYDIS_REGCLASS_GPR64:
    case ZYDIS_REGCLASS_GPR32:
    case ZYDIS_REGCLASS_GPR16:
    case ZYDIS_REGCLASS_GPR8:
        return NUMBERS[ZydisRegisterGetId(ZydisRegisterGetLargestEnclosing(ZYDIS_MACHINE_MODE_LONG_64, name)) & 15];
    default:
        return NOT_FOLLOWED;
    }
}

static void refuse_instruction(struct instruction *i, const char *word, const char *why)
{
    if (!i->refused)
        i->refused = word, i->why = why;
}

/* The base of thread storage isn't among the registers that a signal brings: it is asked for. */
static int64_t thread_base(void)
{
    int64_t base;
    __asm__("movq %%fs:0, %0" : "=r"(base));
    return base;
}

static void add_operand(struct instruction *i, const ZydisDecodedInstruction *d, const ZydisDecodedOperand *o)
{
    struct operand found = {.base = number_of(o->mem.base), .index = number_of(o->mem.index), .scale = o->mem.scale, .size = o->size / 8};
    int is_stack = o->visibility == ZYDIS_OPERAND_VISIBILITY_HIDDEN && found.base == REG_RSP;
    found.reads = (o->actions & ZYDIS_OPERAND_ACTION_MASK_READ) != 0;
    found.writes = (o->actions & ZYDIS_OPERAND_ACTION_MASK_WRITE) != 0;
    found.displacement = o->mem.disp.has_displacement ? o->mem.disp.value : 0;
    if (is_stack && found.writes && !found.displacement)
        found.displacement = -(int64_t)found.size; /* a push */
    if (d->mnemonic == ZYDIS_MNEMONIC_LEAVE)
        found.base = REG_RBP;
    if (found.base == REG_RIP) {
        found.base = -1;
        found.displacement += (int64_t)(i->pc + d->length);
    }
    if (o->mem.segment == ZYDIS_REGISTER_FS)
        found.displacement += thread_base();
    if (found.base == NOT_FOLLOWED || found.index == NOT_FOLLOWED || o->mem.segment == ZYDIS_REGISTER_GS || i->count == OPERANDS)
        refuse_instruction(i, "Undecoded", "an instruction's access to memory isn't followed");
    else
        i->operands[i->count++] = found;
}

static void read_meaning(struct instruction *i, const ZydisDecodedInstruction *d, const ZydisDecodedOperand *operands)
{
    switch (d->meta.category) {
    case ZYDIS_CATEGORY_COND_BR:
    case ZYDIS_CATEGORY_UNCOND_BR: i->meaning = JUMPS; break;
    case ZYDIS_CATEGORY_CALL: i->meaning = CALLS; break;
    case ZYDIS_CATEGORY_RET: i->meaning = RETURNS; break;
    case ZYDIS_CATEGORY_SYSCALL: i->meaning = ASKS_SYSTEM; break;
    default:
        if (d->attributes & (ZYDIS_ATTRIB_HAS_REP | ZYDIS_ATTRIB_HAS_REPE | ZYDIS_ATTRIB_HAS_REPNE))
            i->meaning = REPEATS;
    }
    switch (d->mnemonic) {
    case ZYDIS_MNEMONIC_DIV:
    case ZYDIS_MNEMONIC_IDIV:
        i->divides = 1;
        i->divisor = operands[0].type == ZYDIS_OPERAND_TYPE_REGISTER ? number_of(operands[0].reg.value) : -1;
        i->divisor_size = operands[0].size / 8;
        i->divisor_shift = operands[0].type == ZYDIS_OPERAND_TYPE_REGISTER && operands[0].reg.value >= ZYDIS_REGISTER_AH &&
                           operands[0].reg.value <= ZYDIS_REGISTER_BH ? 8 : 0;
        break;
    case ZYDIS_MNEMONIC_RDTSC:
    case ZYDIS_MNEMONIC_RDTSCP: refuse_instruction(i, "Clock", "the processor's clock is read"); break;
    case ZYDIS_MNEMONIC_RDRAND:
    case ZYDIS_MNEMONIC_RDSEED: refuse_instruction(i, "Random", "the processor draws a random number: declare it as KUIFJE_NOISE"); break;
    default: break;
    }
}

static struct instruction *instruction_at(uint64_t pc)
{
    size_t at = (pc * 0x9e3779b97f4a7c15ull) >> 46 & (SLOTS - 1);
    while (s->instructions[at].pc && s->instructions[at].pc != pc)
        at = (at + 1) & (SLOTS - 1);
    struct instruction *i = &s->instructions[at];
    if (i->pc)
        return i;
    i->pc = pc;
    ZydisDecodedInstruction d;
    ZydisDecodedOperand operands[ZYDIS_MAX_OPERAND_COUNT];
    if (!ZYAN_SUCCESS(ZydisDecoderDecodeFull(&s->decoder, (void *)pc, 15, &d, operands))) {
        refuse_instruction(i, "Undecoded", "an instruction can't be decoded");
        return i;
    }
    i->length = d.length;
    read_meaning(i, &d, operands);
    for (int j = 0; j < d.operand_count; j++)
        if (operands[j].type == ZYDIS_OPERAND_TYPE_MEMORY && operands[j].mem.type != ZYDIS_MEMOP_TYPE_AGEN && d.mnemonic != ZYDIS_MNEMONIC_NOP &&
            d.meta.category != ZYDIS_CATEGORY_PREFETCH)
            add_operand(i, &d, &operands[j]);
    return i;
}

/* ---- steps */

static uint64_t address_of(const struct operand *o, const greg_t *registers)
{
    return (uint64_t)o->displacement + (o->base >= 0 ? (uint64_t)registers[o->base] : 0) +
           (o->index >= 0 ? (uint64_t)registers[o->index] * (uint64_t)o->scale : 0);
}

static void divide(const struct instruction *i, const greg_t *registers)
{
    uint64_t divisor = 0, mask = i->divisor_size < 8 ? ((uint64_t)1 << 8 * i->divisor_size) - 1 : ~(uint64_t)0;
    if (i->divisor >= 0)
        divisor = (uint64_t)registers[i->divisor] >> i->divisor_shift & mask;
    else if (i->count)
        memcpy(&divisor, (const void *)address_of(&i->operands[0], registers), (size_t)i->divisor_size);
    kf_plain(KF_DIVISION, 0, i->pc, 0);
    kf_plain(KF_OPERAND, 0, i->pc, divisor);
    kf_plain(KF_OPERAND, 1, i->pc, (uint64_t)registers[REG_RAX] & (i->divisor_size == 1 ? 0xffff : mask));
    kf_plain(KF_OPERAND, 2, i->pc, i->divisor_size == 1 ? 0 : (uint64_t)registers[REG_RDX] & mask);
}

static void after_previous(const struct instruction *previous, uint64_t pc, const greg_t *registers)
{
    static const enum kf_way WAYS[] = {[JUMPS] = KF_JUMP, [CALLS] = KF_CALLS, [RETURNS] = KF_RETURNS, [REPEATS] = KF_REPEATS};
    if (previous->meaning == ASKS_SYSTEM)
        kf_system_answer(previous->pc, s->system_number, (uint64_t)registers[REG_RAX]);
    else if (previous->meaning != PLAIN)
        kf_transfer(previous->pc, previous->length, WAYS[previous->meaning], pc);
    else if (previous->pc + previous->length != pc)
        kf_refuse("Lost", previous->pc, "control goes on elsewhere after an instruction that doesn't transfer it, so that events were lost");
}

/* The calls of the driver that stand for what is seen: none of their code is run. */
static uint64_t skip_observation(greg_t *registers, uint64_t pc)
{
    uint64_t *top = (uint64_t *)registers[REG_RSP], back = *top;
    if (pc == s->control->observe)
        kf_observed((uint64_t)registers[REG_RDI], back);
    else
        kf_observed_bytes((uint64_t)registers[REG_RDI], (uint64_t)registers[REG_RSI], back);
    registers[REG_RSP] += 8;
    registers[REG_RIP] = (greg_t)back;
    s->previous = 0;
    return back;
}

static void execute(struct instruction *i, const greg_t *registers)
{
    if (i->refused)
        kf_forbid(i->refused, i->pc, i->why);
    kf_count(1, i->pc);
    if (i->divides)
        divide(i, registers);
    if (i->meaning == REPEATS && registers[REG_RCX] == 0)
        return; /* nothing is accessed */
    for (int j = 0; j < i->count; j++) {
        uint64_t address = address_of(&i->operands[j], registers);
        if (i->operands[j].reads)
            kf_memory(KF_LOAD, i->operands[j].size, i->pc, address);
        if (i->operands[j].writes)
            kf_memory(KF_STORE, i->operands[j].size, i->pc, address);
    }
    if (i->meaning == ASKS_SYSTEM) {
        const uint64_t words[] = {(uint64_t)registers[REG_RDI], (uint64_t)registers[REG_RSI], (uint64_t)registers[REG_RDX],
                                  (uint64_t)registers[REG_R10], (uint64_t)registers[REG_R8],  (uint64_t)registers[REG_R9]};
        s->system_number = (uint64_t)registers[REG_RAX];
        kf_system_call(i->pc, s->system_number, words);
    }
}

/* ---- divisions alone */

/* Where a module's memory begins, by the path of its file. */
static uint64_t start_of(const char *maps, const char *path)
{
    for (const char *line = maps; line && *line; line = strchr(line, '\n') ? strchr(line, '\n') + 1 : 0) {
        unsigned long low;
        char found[2048] = "";
        if (sscanf(line, "%lx-%*x %*s %*s %*s %*s %2047[^\n]", &low, found) == 2 && !strcmp(found, path))
            return low;
    }
    return 0;
}

/* The file has for each division how far it lies from the beginning of its module's memory, and the module's path. */
static void plant(void)
{
    FILE *file = fopen(getenv("KUIFJE_STEP"), "r");
    unsigned long away;
    char path[2048];
    while (file && fscanf(file, "%lx %2047[^\n]", &away, path) == 2) {
        uint64_t start = start_of((const char *)s->control->maps, path);
        struct breakpoint *b = &s->breakpoints[s->breakpoint_count];
        b->at = (uint8_t *)(start + away);
        if (!start || s->breakpoint_count == MOST_BREAKPOINTS ||
            mprotect((void *)((uint64_t)b->at & ~4095ul), 8192, PROT_READ | PROT_WRITE | PROT_EXEC) != 0)
            kf_refuse("Divisions", 0, "a division can't be stopped at");
        instruction_at((uint64_t)b->at);
        b->byte = *b->at;
        s->breakpoint_count++;
    }
    if (file)
        fclose(file);
    for (size_t i = 0; i < s->breakpoint_count; i++)
        *s->breakpoints[i].at = BREAKPOINT;
}

static void stop_at_division(greg_t *registers)
{
    if (s->open) {
        *s->open->at = BREAKPOINT;
        s->open = 0;
        registers[REG_EFL] &= ~TRAP_FLAG;
        return;
    }
    uint8_t *at = (uint8_t *)registers[REG_RIP] - 1;
    for (size_t i = 0; i < s->breakpoint_count && !s->open; i++)
        if (s->breakpoints[i].at == at)
            s->open = &s->breakpoints[i];
    if (!s->open)
        kf_refuse("Crash", (uint64_t)at, "a run stops at a breakpoint of its own");
    if (kf_on)
        divide(instruction_at((uint64_t)at), registers);
    *at = s->open->byte;
    registers[REG_RIP] = (greg_t)at;
    registers[REG_EFL] |= TRAP_FLAG;
}

static void step(int signal, siginfo_t *info, void *context)
{
    greg_t *registers = ((ucontext_t *)context)->uc_mcontext.gregs;
    uint64_t pc = (uint64_t)registers[REG_RIP];
    (void)signal, (void)info;
    if (s->is_dividing) {
        stop_at_division(registers);
        return;
    }
    if (!kf_on) {
        if (pc != s->control->go)
            return;
        kf_on = 1;
        s->previous = 0;
    }
    if (s->previous)
        after_previous(s->previous, pc, registers);
    if (pc == s->control->observe || pc == s->control->observe_bytes)
        pc = skip_observation(registers, pc);
    if (pc == s->control->back) {
        registers[REG_EFL] &= ~TRAP_FLAG;
        kf_on = 0;
        return;
    }
    s->previous = instruction_at(pc);
    execute(s->previous, registers);
}

uint64_t kf_step_flags(void) { return s->is_dividing ? 0 : TRAP_FLAG; }

void kf_step_next(struct kf_control *control)
{
    static const struct kf_machine MACHINE = {"x86_64", 0};
    static int is_set_up;
    if (!is_set_up) {
        is_set_up = 1;
        s = mmap(0, sizeof *s, PROT_READ | PROT_WRITE, MAP_SHARED | MAP_ANONYMOUS | MAP_NORESERVE, -1, 0);
        if (s == MAP_FAILED)
            _exit(5);
        s->is_dividing = getenv("KUIFJE_STEP")[0] == '/';
        if (!kf_start(s->is_dividing ? "divisions" : "processor", &MACHINE, 0))
            _exit(5);
        kf_ready = s->is_dividing ? plant : 0;
        s->control = control;
        ZydisDecoderInit(&s->decoder, ZYDIS_MACHINE_MODE_LONG_64, ZYDIS_STACK_WIDTH_64);
        stack_t other = {.ss_sp = s->stack, .ss_size = sizeof s->stack};
        struct sigaction action;
        memset(&action, 0, sizeof action);
        action.sa_sigaction = step;
        action.sa_flags = SA_SIGINFO | SA_ONSTACK;
        sigaltstack(&other, 0);
        sigaction(SIGTRAP, &action, 0);
    }
    kf_next(control);
}
