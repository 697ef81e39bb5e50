/* live_calls [apart]: makes system calls under a filter, and tells what the kernel answered to each. It is used by check_calls.py
 * and by check_profiles.py.
 *
 * Standard input begins with the number of the filter's instructions and that of the calls, each of 32 bits, then has the
 * instructions as struct sock_filter, and then each call as a word of 32 bits, which is 1 for a call of i386 and 0 for one of
 * x86-64 or x32, its number, and its six arguments, of 32 bits each. Standard output gets a line for each call: the register
 * that a call's result is in. The filter has to refuse each call by an error of its own, so that none is performed: with
 * nothing performed the process under it can neither write nor end itself. So its answers stand in memory that is shared, and
 * an instruction without a meaning ends it.
 *
 * With the word apart each call is made by a process of its own, under the filter as it is: a call that the filter allows is
 * performed, and where one ends its process the line is "signal" and the number of the signal.
 *
 * The status is 0, or 3 where the kernel takes no filter or no call of i386, which is told on standard error, or 2 for trouble. */
#define _GNU_SOURCE
#include <linux/filter.h>
#include <linux/seccomp.h>
#include <signal.h>
#include <stdint.h>
#include <stdio.h>
#include <stdlib.h>
#include <string.h>
#include <sys/mman.h>
#include <sys/prctl.h>
#include <sys/syscall.h>
#include <sys/wait.h>
#include <unistd.h>

struct call {
    uint32_t is_i386, number, arguments[6];
};

struct answers {
    uint32_t attached, count;
    int64_t results[];
};

static int64_t native(const struct call *call)
{
    register uint64_t fourth __asm__("r10") = call->arguments[3], fifth __asm__("r8") = call->arguments[4],
                      sixth __asm__("r9") = call->arguments[5];
    int64_t result;
    __asm__ volatile("syscall"
                     : "=a"(result)
                     : "a"((uint64_t)call->number), "D"((uint64_t)call->arguments[0]), "S"((uint64_t)call->arguments[1]),
                       "d"((uint64_t)call->arguments[2]), "r"(fourth), "r"(fifth), "r"(sixth)
                     : "rcx", "r11", "memory");
    return result;
}

/* The sixth argument of i386 is in ebp, which the compiler may want: no call of ours has one. */
static int64_t of_i386(const struct call *call)
{
    int64_t result;
    __asm__ volatile("int $0x80"
                     : "=a"(result)
                     : "a"((uint64_t)call->number), "b"((uint64_t)call->arguments[0]), "c"((uint64_t)call->arguments[1]),
                       "d"((uint64_t)call->arguments[2]), "S"((uint64_t)call->arguments[3]), "D"((uint64_t)call->arguments[4])
                     : "r8", "r9", "r10", "r11", "memory");
    return (int32_t)result;
}

static void under(const struct sock_fprog *program, const struct call *calls, uint32_t count, struct answers *answers)
{
    if (prctl(PR_SET_NO_NEW_PRIVS, 1, 0, 0, 0) || syscall(SYS_seccomp, SECCOMP_SET_MODE_FILTER, 0, program))
        _exit(0);
    answers->attached = 1;
    for (uint32_t at = 0; at < count; at++) {
        answers->results[at] = calls[at].is_i386 ? of_i386(&calls[at]) : native(&calls[at]);
        answers->count = at + 1;
    }
    __builtin_trap();
}

static void *given(size_t count, size_t size)
{
    void *all = calloc(count + 1, size);
    if (!all || fread(all, size, count, stdin) != count) {
        fprintf(stderr, "live_calls: the input is too short\n");
        exit(2);
    }
    return all;
}

/* How a process under the filter that makes these calls ended. */
static int ended(const struct sock_fprog *program, const struct call *calls, uint32_t count, struct answers *answers)
{
    int status;
    pid_t child = fork();
    if (child == 0)
        under(program, calls, count, answers);
    if (child < 0 || waitpid(child, &status, 0) != child) {
        perror("live_calls");
        exit(2);
    }
    return WIFSIGNALED(status) ? WTERMSIG(status) : 0;
}

/* Without i386 its instruction is a fault; a filter ends a process by SIGSYS. */
static void told(const struct answers *answers, uint32_t count, int signal)
{
    if (answers->count != count && !(answers->attached && signal == SIGSYS)) {
        fprintf(stderr, "live_calls: the kernel takes no %s\n", answers->attached ? "call of i386" : "filter");
        exit(3);
    }
    for (uint32_t at = 0; at < answers->count; at++)
        printf("%lld\n", (long long)answers->results[at]);
    if (answers->count != count)
        printf("signal %d\n", signal);
}

int main(int count, char **words)
{
    int is_apart = count > 1 && !strcmp(words[1], "apart");
    uint32_t *counts = given(2, sizeof *counts);
    struct sock_fprog program = {.len = counts[0], .filter = given(counts[0], sizeof(struct sock_filter))};
    struct call *calls = given(counts[1], sizeof *calls);
    size_t size = sizeof(struct answers) + counts[1] * sizeof(int64_t);
    struct answers *answers = mmap(NULL, size, PROT_READ | PROT_WRITE, MAP_SHARED | MAP_ANONYMOUS, -1, 0);
    if (answers == MAP_FAILED) {
        perror("live_calls");
        return 2;
    }
    uint32_t step = is_apart ? 1 : counts[1];
    for (uint32_t at = 0; at < counts[1]; at += step) {
        answers->attached = answers->count = 0;
        told(answers, step, ended(&program, calls + at, step, answers));
    }
    return fflush(stdout) ? 2 : 0;
}
