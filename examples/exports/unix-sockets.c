/* Writes a filter that lets a program read, write and open sockets of the Unix family alone:
 *   gcc unix-sockets.c -lseccomp -o unix-sockets && ./unix-sockets > unix-sockets.bpf
 * The file beside this one is what libseccomp 2.5.4 wrote. */
#include <errno.h>
#include <seccomp.h>
#include <sys/socket.h>
#include <unistd.h>

int main(void) {
    scmp_filter_ctx rules = seccomp_init(SCMP_ACT_ERRNO(EPERM));
    int allowed[] = {SCMP_SYS(read), SCMP_SYS(write), SCMP_SYS(close), SCMP_SYS(exit_group), SCMP_SYS(brk), SCMP_SYS(mmap)};
    for (unsigned at = 0; at < sizeof allowed / sizeof *allowed; at++)
        if (seccomp_rule_add(rules, SCMP_ACT_ALLOW, allowed[at], 0))
            return 1;
    if (seccomp_rule_add(rules, SCMP_ACT_ALLOW, SCMP_SYS(socket), 1, SCMP_A0(SCMP_CMP_EQ, AF_UNIX)))
        return 1;
    return seccomp_export_bpf(rules, STDOUT_FILENO) ? 1 : 0;
}
