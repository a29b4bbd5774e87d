/* Runs a program, and makes calls of one file short, or cuts the file before one of them: what a system may
   do, and cannot be told to. Built by bench/faults.sh, for Linux on x86-64.
   Usage: short FILE CALL FROM TO CUT PROGRAM WORDS..
   CALL is "read" (read or pread64) or "write" (write or pwrite64), and such calls of FILE, a whole path, are
   counted from 1 over all threads. Those from FROM to TO are handed half of their bytes, and at least one,
   where CUT is "-"; else the file is cut to CUT bytes before each of them. It ends as the program does, or
   with 128 and the signal's number, or with 99 where there is no such call. */
#include <signal.h>
#include <stdio.h>
#include <stdlib.h>
#include <string.h>
#include <sys/ptrace.h>
#include <sys/syscall.h>
#include <sys/types.h>
#include <sys/user.h>
#include <sys/wait.h>
#include <unistd.h>

static long made, meant;

/* Whether a thread's call is one of that kind, of that file. */
static int is_wanted(pid_t thread, const struct user_regs_struct *held, const char *file, int reads)
{
    char link[64], path[4096];
    long call = held->orig_rax;
    if (reads ? call != SYS_read && call != SYS_pread64 : call != SYS_write && call != SYS_pwrite64)
        return 0;
    snprintf(link, sizeof link, "/proc/%d/fd/%d", (int)thread, (int)held->rdi);
    ssize_t length = readlink(link, path, sizeof path - 1);
    if (length < 0)
        return 0;
    path[length] = 0;
    return strcmp(path, file) == 0;
}

/* Counts a call that begins, and changes it where it is one of those. */
static void at_call(pid_t thread, char **words)
{
    struct user_regs_struct held;
    if (ptrace(PTRACE_GETREGS, thread, 0, &held) || !is_wanted(thread, &held, words[1], words[2][0] == 'r'))
        return;
    made++;
    if (made < atol(words[3]) || made > atol(words[4]))
        return;
    meant++;
    if (words[5][0] != '-') {
        if (truncate(words[1], atol(words[5])))
            exit(98);
    } else if (held.rdx > 1) {
        held.rdx /= 2;
        ptrace(PTRACE_SETREGS, thread, 0, &held);
    }
}

int main(int count, char **words)
{
    int state;
    if (count < 7)
        return 98;
    pid_t program = fork();
    if (program == 0) {
        ptrace(PTRACE_TRACEME, 0, 0, 0);
        execv(words[6], words + 6);
        _exit(98);
    }
    if (waitpid(program, &state, 0) != program || !WIFSTOPPED(state))
        return 98;
    ptrace(PTRACE_SETOPTIONS, program, 0, PTRACE_O_TRACESYSGOOD | PTRACE_O_TRACECLONE | PTRACE_O_TRACEEXEC | PTRACE_O_EXITKILL);
    ptrace(PTRACE_SYSCALL, program, 0, 0);
    for (;;) {
        pid_t thread = waitpid(-1, &state, __WALL);
        if (thread < 0)
            return 98;
        if (WIFEXITED(state) || WIFSIGNALED(state)) {
            if (thread != program)
                continue;
            if (WIFSIGNALED(state))
                return 128 + WTERMSIG(state);
            return meant ? WEXITSTATUS(state) : 99;
        }
        int signal = WSTOPSIG(state);
        struct __ptrace_syscall_info info;
        if (signal == (SIGTRAP | 0x80)) {
            if (ptrace(PTRACE_GET_SYSCALL_INFO, thread, sizeof info, &info) > 0 && info.op == PTRACE_SYSCALL_INFO_ENTRY)
                at_call(thread, words);
            signal = 0;
        } else if (signal == SIGTRAP || signal == SIGSTOP)
            signal = 0;
        ptrace(PTRACE_SYSCALL, thread, 0, signal);
    }
}
