/*
 * attach FILE COMMAND..: attaches a filter, which is the bytes of its struct sock_filters, and becomes the command. It needs no
 * privilege, since it sets no_new_privs.
 *
 * Nothing is run unless the filter is valid and lets execve(2) through: what the library of skern.h says of both is told before
 * anything is attached. The status is 125 then; it is 127 where no such command is there, and 126 where it cannot be run.
 */
#define _GNU_SOURCE
#include "skern.h"

#include <errno.h>
#include <linux/audit.h>
#include <stdio.h>
#include <stdlib.h>
#include <string.h>
#include <sys/prctl.h>
#include <sys/syscall.h>
#include <unistd.h>

enum { NOTHING_RUN = 125, NOT_RUN = 126, NOT_FOUND = 127 };

static struct sock_filter insns[BPF_MAXINSNS + 1];

static int nothing_run(const char *what, const char *why) {
    fprintf(stderr, "attach: %s: %s; nothing was run\n", what, why);
    return NOTHING_RUN;
}

static int refused(const char *path, struct skern_fault fault) {
    char text[SKERN_TEXT];
    skern_reason(fault.reason, text, sizeof text);
    fprintf(stderr, "attach: %s: instruction %zu: %s; nothing was run\n", path, fault.place, text);
    return NOTHING_RUN;
}

static bool is_performed(uint32_t verdict) {
    uint32_t action = verdict & SECCOMP_RET_ACTION_FULL;
    return action == SECCOMP_RET_ALLOW || action == SECCOMP_RET_LOG;
}

/* Whether the filter is valid and lets this process execute: 0, or the status after the reason was told. */
static int judged(const char *path, size_t bytes) {
    struct skern_filter filter = {insns, bytes};
    struct seccomp_data call = {.nr = SYS_execve, .arch = AUDIT_ARCH_X86_64};
    uint32_t verdict;
    struct skern_fault fault = skern_check(insns, bytes);
    if (fault.reason == SKERN_OK) fault = skern_verdict(&filter, 1, &call, 1, &verdict, 1);
    if (fault.reason != SKERN_OK) return refused(path, fault);
    if (is_performed(verdict)) return 0;
    fprintf(stderr, "attach: %s: execve gets 0x%08x; nothing was run\n", path, verdict);
    return NOTHING_RUN;
}

int main(int count, char **words) {
    if (count < 3) {
        fputs("usage: attach FILE COMMAND..\n", stderr);
        return NOTHING_RUN;
    }
    FILE *file = fopen(words[1], "rb");
    if (!file) return nothing_run(words[1], strerror(errno));
    size_t bytes = fread(insns, 1, sizeof insns, file);
    if (ferror(file)) return nothing_run(words[1], strerror(errno));
    fclose(file);
    int status = judged(words[1], bytes);
    if (status) return status;
    struct sock_fprog program = {.len = (unsigned short)(bytes / sizeof *insns), .filter = insns};
    if (prctl(PR_SET_NO_NEW_PRIVS, 1, 0, 0, 0)) return nothing_run("no_new_privs", strerror(errno));
    if (syscall(SYS_seccomp, SECCOMP_SET_MODE_FILTER, 0, &program)) return nothing_run(words[1], strerror(errno));
    execvp(words[2], words + 2);
    int why = errno;
    fprintf(stderr, "attach: %s: %s\n", words[2], strerror(why));
    return why == ENOENT ? NOT_FOUND : NOT_RUN;
}
