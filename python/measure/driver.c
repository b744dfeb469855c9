/* The driver: it is linked to a harness, and calls kuifje_run once for each assignment that the tracer makes.

   The tracer is the plugin of an emulator (emulator.c), which is called by a system call that no kernel has, or the single-stepper (stepper.c), which
   is linked to the same program and called by a pointer. So both see one and the same program. */
#define _GNU_SOURCE
#include <fcntl.h>
#include <signal.h>
#include <stdio.h>
#include <stdlib.h>
#include <string.h>
#include <sys/mman.h>
#include <sys/syscall.h>
#include <ucontext.h>
#include <unistd.h>
#include "control.h"
#include "kuifje_measure.h"

#define MOST_VARIABLES 64
#define MOST_PARTS 4096
#define MAPS_SIZE ((size_t)1 << 20)
#define STACK_SIZE ((size_t)8 << 20)
#define HIDDEN __attribute__((section("kf_hidden"), noinline, used))

static struct kf_variable variables[MOST_VARIABLES];
static struct kf_control *control; /* in shared memory, which no snapshot restores */
static uint64_t program_break;
uint64_t kf_saved_stack;

/* The single-stepper, where it is linked: none else. */
void kf_step_next(struct kf_control *control) __attribute__((weak));
uint64_t kf_step_flags(void) __attribute__((weak));
static int stepping;

long kf_enter(uint64_t stack, uint64_t poison, uint64_t flags);
extern char kf_go[], kf_back[];
extern char __start_kf_hidden[], __stop_kf_hidden[];

void kf_declare(struct kf_variable variable)
{
    static uint64_t count;
    if (count == MOST_VARIABLES) {
        fprintf(stderr, "more than %d variables are declared\n", MOST_VARIABLES);
        _exit(3);
    }
    if (!control) {
        control = mmap(0, sizeof *control, PROT_READ | PROT_WRITE, MAP_SHARED | MAP_ANONYMOUS, -1, 0);
        if (control == MAP_FAILED)
            _exit(3);
    }
    variables[count++] = variable;
    control->variable_count = count;
}

void kf_weigh(const void *at, const uint64_t *weights, uint64_t count)
{
    for (uint64_t i = 0; control && i < control->variable_count; i++)
        if (variables[i].at == at) {
            if (count != (uint64_t)(variables[i].high - variables[i].low) + 1) {
                fprintf(stderr, "%s has %lu weights, and %ld values\n", variables[i].name, count, variables[i].high - variables[i].low + 1);
                _exit(3);
            }
            variables[i].weights = weights;
        }
}

#if defined(__x86_64__)
static inline __attribute__((always_inline)) long call(long question, long a, long b, long c)
{
    long result;
    register long r10 __asm__("r10") = c;
    __asm__ volatile("syscall" : "=a"(result) : "a"(KF_CALL), "D"(question), "S"(a), "d"(b), "r"(r10) : "rcx", "r11", "memory");
    return result;
}
/* On a stack of its own, with all registers the poison that a call may leave. */
__asm__(".text\n.globl kf_enter\nkf_enter:\n"
        " pushq %rbx\n pushq %rbp\n pushq %r12\n pushq %r13\n pushq %r14\n pushq %r15\n"
        " pushfq\n orq %rdx, (%rsp)\n popfq\n"
        " movq %rsp, kf_saved_stack(%rip)\n movq %rdi, %rsp\n"
        " movq %rsi, %rax\n movq %rsi, %rbx\n movq %rsi, %rcx\n movq %rsi, %rdx\n movq %rsi, %rdi\n movq %rsi, %rbp\n"
        " movq %rsi, %r8\n movq %rsi, %r9\n movq %rsi, %r10\n movq %rsi, %r11\n movq %rsi, %r12\n movq %rsi, %r13\n movq %rsi, %r14\n movq %rsi, %r15\n"
        " jmp kf_go\n.globl kf_go\nkf_go: call kuifje_run@PLT\n.globl kf_back\nkf_back:\n"
        " movq kf_saved_stack(%rip), %rsp\n"
        " popq %r15\n popq %r14\n popq %r13\n popq %r12\n popq %rbp\n popq %rbx\n ret\n");
#define FAULT_AT(context) ((uint64_t)(context)->uc_mcontext.gregs[REG_RIP])
#elif defined(__aarch64__)
static inline __attribute__((always_inline)) long call(long question, long a, long b, long c)
{
    register long x8 __asm__("x8") = KF_CALL, x0 __asm__("x0") = question, x1 __asm__("x1") = a, x2 __asm__("x2") = b, x3 __asm__("x3") = c;
    __asm__ volatile("svc 0" : "+r"(x0) : "r"(x8), "r"(x1), "r"(x2), "r"(x3) : "memory");
    return x0;
}
__asm__(".text\n.globl kf_enter\nkf_enter:\n"
        " stp x29, x30, [sp, -96]!\n stp x19, x20, [sp, 16]\n stp x21, x22, [sp, 32]\n stp x23, x24, [sp, 48]\n stp x25, x26, [sp, 64]\n"
        " stp x27, x28, [sp, 80]\n mov x9, sp\n adrp x10, kf_saved_stack\n add x10, x10, :lo12:kf_saved_stack\n str x9, [x10]\n mov sp, x0\n"
        " mov x0, x1\n mov x2, x1\n mov x3, x1\n mov x4, x1\n mov x5, x1\n mov x6, x1\n mov x7, x1\n mov x8, x1\n mov x9, x1\n mov x10, x1\n"
        " mov x11, x1\n mov x12, x1\n mov x13, x1\n mov x14, x1\n mov x15, x1\n mov x16, x1\n mov x17, x1\n mov x19, x1\n mov x20, x1\n"
        " b kf_go\n.globl kf_go\nkf_go: bl kuifje_run\n.globl kf_back\nkf_back:\n"
        " adrp x10, kf_saved_stack\n add x10, x10, :lo12:kf_saved_stack\n ldr x9, [x10]\n mov sp, x9\n"
        " ldp x19, x20, [sp, 16]\n ldp x21, x22, [sp, 32]\n ldp x23, x24, [sp, 48]\n ldp x25, x26, [sp, 64]\n ldp x27, x28, [sp, 80]\n"
        " ldp x29, x30, [sp], 96\n ret\n");
#define FAULT_AT(context) ((uint64_t)(context)->uc_mcontext.pc)
#else
#error "the driver knows x86-64 and aarch64"
#endif

/* Of these two the single-stepper runs nothing: it records what they are called with, and goes on after the call. */
HIDDEN void kuifje_observe(long value)
{
    call(KF_OBSERVED, value, 0, (long)__builtin_return_address(0));
}

HIDDEN void kuifje_observe_bytes(const void *at, size_t length)
{
    call(KF_OBSERVED_BYTES, (long)at, (long)length, (long)__builtin_return_address(0));
}

static void next(void)
{
    if (control->fresh_break)
        syscall(SYS_brk, program_break);
    if (stepping)
        kf_step_next(control);
    else
        call(KF_NEXT, (long)control, 0, 0);
}

static void crash(int signal, siginfo_t *info, void *context)
{
    (void)info;
    control->crashed = (uint64_t)signal;
    control->crashed_at = FAULT_AT((ucontext_t *)context);
    next();
    _exit(3);
}

/* Notes the text of the memory map, and which parts are writable and the process's own: not the stacks, and nothing that is shared. */
static void read_maps(void)
{
    char *text = (char *)control->maps;
    struct kf_part *parts = (struct kf_part *)control->parts;
    int file = open("/proc/self/maps", O_RDONLY);
    size_t size = 0;
    ssize_t got;
    while (size < MAPS_SIZE - 1 && (got = read(file, text + size, MAPS_SIZE - 1 - size)) > 0)
        size += (size_t)got;
    close(file);
    text[size] = 0;
    control->maps_size = size;
    control->part_count = 0;
    for (const char *line = text; line && *line; line = strchr(line, '\n') ? strchr(line, '\n') + 1 : 0) {
        unsigned long low, high;
        char flags[8];
        if (sscanf(line, "%lx-%lx %7s", &low, &high, flags) != 3 || flags[0] != 'r' || flags[1] != 'w' || flags[3] != 'p')
            continue;
        if (((uint64_t)&low >= low && (uint64_t)&low < high) || (control->stack >= low && control->stack < high))
            continue;
        if (control->part_count < MOST_PARTS)
            parts[control->part_count++] = (struct kf_part){low, high - low};
    }
    program_break = (uint64_t)syscall(SYS_brk, 0);
}

static void *shared(size_t size)
{
    void *at = mmap(0, size, PROT_READ | PROT_WRITE, MAP_SHARED | MAP_ANONYMOUS | MAP_NORESERVE, -1, 0);
    if (at == MAP_FAILED)
        _exit(3);
    return at;
}

static void set_up(void)
{
    static char alternate[1 << 16];
    stack_t other = {.ss_sp = alternate, .ss_size = sizeof alternate};
    struct sigaction action;
    memset(&action, 0, sizeof action);
    action.sa_sigaction = crash;
    action.sa_flags = SA_SIGINFO | SA_ONSTACK | SA_NODEFER;
    sigaltstack(&other, 0);
    int signals[] = {SIGSEGV, SIGBUS, SIGFPE, SIGILL, SIGABRT};
    for (size_t i = 0; i < sizeof signals / sizeof *signals; i++)
        sigaction(signals[i], &action, 0);
    control->go = (uint64_t)kf_go;
    control->back = (uint64_t)kf_back;
    control->hidden = (uint64_t)__start_kf_hidden;
    control->hidden_end = (uint64_t)__stop_kf_hidden;
    control->observe = (uint64_t)kuifje_observe;
    control->observe_bytes = (uint64_t)kuifje_observe_bytes;
    control->crash_handler = (uint64_t)crash;
    control->stack = (uint64_t)shared(STACK_SIZE);
    control->stack_size = STACK_SIZE;
    control->variables = (uint64_t)variables;
    control->maps = (uint64_t)shared(MAPS_SIZE);
    control->parts = (uint64_t)shared(MOST_PARTS * sizeof(struct kf_part));
}

int main(void)
{
    stepping = getenv("KUIFJE_STEP") != 0;
    if (!control || (stepping && !kf_step_next)) {
        fprintf(stderr, control ? "there is no single-stepper in this program\n" : "the harness declares no secret\n");
        return 4;
    }
    set_up();
    control->stop = 2; /* which a tracer takes back */
    for (next(); !control->stop; next()) {
        if (control->wants_maps)
            read_maps();
        else
            control->result = kf_enter(control->stack + STACK_SIZE - 4096, control->poison, stepping ? kf_step_flags() : 0);
    }
    if (control->stop == 2)
        fprintf(stderr, "this program is run by kuifje-lab measure, which traces it\n");
    return control->stop == 1 ? 0 : 4;
}
