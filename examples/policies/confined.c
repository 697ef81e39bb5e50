/* confined FILTER COMMAND [WORD ..]: attaches the filter in a file, as `ask filter --raw` writes it, and becomes the command. */
#include <linux/filter.h>
#include <linux/seccomp.h>
#include <stdio.h>
#include <sys/prctl.h>
#include <sys/syscall.h>
#include <unistd.h>

int main(int count, char **words) {
    static struct sock_filter filter[BPF_MAXINSNS];
    FILE *file = count > 2 ? fopen(words[1], "rb") : NULL;
    if (!file) {
        fprintf(stderr, "usage: confined FILTER COMMAND [WORD ..]\n");
        return 2;
    }
    struct sock_fprog program = {.len = fread(filter, sizeof *filter, BPF_MAXINSNS, file), .filter = filter};
    fclose(file);
    if (prctl(PR_SET_NO_NEW_PRIVS, 1, 0, 0, 0) || syscall(SYS_seccomp, SECCOMP_SET_MODE_FILTER, 0, &program)) {
        perror("confined: the filter is not attached");
        return 2;
    }
    execv(words[2], words + 2);
    perror(words[2]);
    return 127;
}
