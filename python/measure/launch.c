/* Starts a program on the processor as the emulator starts it: without random addresses, and without the kernel's own library (vDSO), which the emulator
   hasn't. The loader then lays its memory out in the same way, and the clock is asked by system calls in both.

   launch PROGRAM */
#define _GNU_SOURCE
#include <elf.h>
#include <stdio.h>
#include <sys/personality.h>
#include <sys/ptrace.h>
#include <sys/user.h>
#include <sys/wait.h>
#include <unistd.h>

/* On the stack stand how many words there are, the words, a zero, the environment, a zero, and pairs that describe the system. */
static int hide_library(pid_t child)
{
    struct user_regs_struct registers;
    if (ptrace(PTRACE_GETREGS, child, 0, &registers) != 0)
        return 0;
    unsigned long at = registers.rsp + 8 + 8 * (unsigned long)ptrace(PTRACE_PEEKDATA, child, registers.rsp, 0) + 8;
    while (ptrace(PTRACE_PEEKDATA, child, at, 0) != 0)
        at += 8;
    for (at += 8;; at += 16) {
        long type = ptrace(PTRACE_PEEKDATA, child, at, 0);
        if (type == AT_SYSINFO_EHDR)
            return ptrace(PTRACE_POKEDATA, child, at, AT_IGNORE) == 0;
        if (type == AT_NULL)
            return 1;
    }
}

int main(int count, char **words)
{
    int status;
    if (count != 2)
        return 4;
    pid_t child = fork();
    if (child == 0) {
        personality(ADDR_NO_RANDOMIZE | ADDR_COMPAT_LAYOUT); /* the emulator gives memory out upward, too */
        ptrace(PTRACE_TRACEME, 0, 0, 0);
        execv(words[1], words + 1);
        _exit(4);
    }
    if (child < 0 || waitpid(child, &status, 0) != child || !WIFSTOPPED(status) || !hide_library(child) || ptrace(PTRACE_DETACH, child, 0, 0) != 0) {
        fprintf(stderr, "a program can't be started to be traced\n");
        return 4;
    }
    if (waitpid(child, &status, 0) != child)
        return 4;
    return WIFEXITED(status) ? WEXITSTATUS(status) : 128 + WTERMSIG(status);
}
