/*
 * filters: asks the library of skern.h about filters in files, which are the bytes of their struct sock_filters.
 *
 *   filters check FILE..                      whether each filter is valid, or its first fault
 *   filters verdict CALLS FILE..              what the filters, the oldest first, answer to each struct seccomp_data in CALLS
 *   filters compare [--stricter] OLD NEW      whether NEW answers every call of x86-64 as OLD does, or as strictly
 *   filters profile FILE                      the filter of a profile's JSON, on Linux 6.12 and without a capability
 *   filters policy FILE                       the filter of a policy's text
 *   filters lint FILE..                       whether bits that Linux does not read change a verdict, as `ask lint` tells it
 *
 * The status is 0 where the answer is yes, a verdict or a filter, and 1 where it is no. It is 2 where there is no answer: why is
 * one line on standard error, with the lines of `lint` below it where it is not known.
 */
#include "skern.h"

#include <errno.h>
#include <stdio.h>
#include <stdlib.h>
#include <string.h>

/* More than a filter, a profile or a policy may have. */
enum { MOST_BYTES = 1 << 20, MOST_FILTERS = 32, YES = 0, NO = 1, TROUBLE = 2 };

static int trouble(const char *what) {
    fprintf(stderr, "filters: %s\n", what);
    return TROUBLE;
}

static int not_read(const char *path, int why) {
    fprintf(stderr, "filters: %s: %s\n", path, strerror(why));
    return TROUBLE;
}

/* The bytes of a file, or nothing where it cannot be read: why is in errno. */
static void *contents(const char *path, size_t *bytes) {
    FILE *file = fopen(path, "rb");
    char *all = file ? malloc(MOST_BYTES) : NULL;
    *bytes = all ? fread(all, 1, MOST_BYTES, file) : 0;
    int why = all && *bytes == MOST_BYTES ? EFBIG : all && !ferror(file) ? 0 : errno;
    if (file) fclose(file);
    if (!why) return all;
    free(all);
    errno = why;
    return NULL;
}

/* Says what is wrong with a filter. */
static void tell(FILE *to, const char *path, struct skern_fault fault) {
    char text[SKERN_TEXT];
    skern_reason(fault.reason, text, sizeof text);
    fprintf(to, "%s: refused %u %s at %zu\n", path, fault.reason, text, fault.place);
}

/* Says why there is no answer about filters in files. Only what is wrong with a filter names its file. */
static int no_answer(char **paths, struct skern_fault fault) {
    char text[SKERN_TEXT];
    if (fault.reason <= SKERN_PATH_LIMIT) {
        fputs("filters: ", stderr);
        tell(stderr, paths[fault.filter], fault);
        return TROUBLE;
    }
    skern_reason(fault.reason, text, sizeof text);
    return trouble(text);
}

static int check(int count, char **paths) {
    int status = YES;
    for (int i = 0; i < count; i++) {
        size_t bytes;
        void *insns = contents(paths[i], &bytes);
        if (!insns) return not_read(paths[i], errno);
        struct skern_fault fault = skern_check(insns, bytes);
        free(insns);
        if (fault.reason == SKERN_NO_MEMORY) return no_answer(paths, fault);
        if (fault.reason == SKERN_OK) {
            printf("%s: ok %zu\n", paths[i], bytes / sizeof(struct sock_filter));
        } else {
            tell(stdout, paths[i], fault);
            status = NO;
        }
    }
    return status;
}

/* The filters of files, the oldest first. */
struct chain {
    struct skern_filter filters[MOST_FILTERS];
    size_t count;
};

static void free_chain(struct chain *chain) {
    for (size_t i = 0; i < chain->count; i++) free((void *)chain->filters[i].insns);
}

/* Reads the filters of files; where it does not, it says why, and there are none. */
static bool read_chain(int count, char **paths, struct chain *chain) {
    chain->count = 0;
    if (count > MOST_FILTERS) {
        trouble("there are more than 32 files");
        return false;
    }
    for (int i = 0; i < count; i++) {
        struct skern_filter *it = &chain->filters[i];
        it->insns = contents(paths[i], &it->bytes);
        if (!it->insns) {
            not_read(paths[i], errno);
            free_chain(chain);
            return false;
        }
        chain->count++;
    }
    return true;
}

/* What a chain answers to calls, a line for each. */
static int verdicts(char **paths, const struct chain *chain, const struct seccomp_data *calls, size_t count) {
    uint32_t *values = malloc(count * sizeof *values);
    if (!values) return trouble(strerror(errno));
    struct skern_fault fault = skern_verdict(chain->filters, chain->count, calls, count, values, count);
    int status = fault.reason == SKERN_OK ? YES : no_answer(paths, fault);
    for (size_t i = 0; status == YES && i < count; i++) printf("0x%08x\n", values[i]);
    free(values);
    return status;
}

static int verdict(char *calls_path, int count, char **paths) {
    struct chain chain;
    size_t bytes;
    int status = TROUBLE;
    struct seccomp_data *calls = contents(calls_path, &bytes);
    if (!calls) return not_read(calls_path, errno);
    if (bytes == 0 || bytes % sizeof *calls != 0) {
        trouble("there are no calls");
    } else if (read_chain(count, paths, &chain)) {
        status = verdicts(paths, &chain, calls, bytes / sizeof *calls);
        free_chain(&chain);
    }
    free(calls);
    return status;
}

static void show(const struct skern_difference *it) {
    const struct seccomp_data *call = &it->call;
    printf("syscall(%d", call->nr);
    for (int i = 0; i < 6; i++) printf(", 0x%llx", (unsigned long long)call->args[i]);
    printf("): 0x%08x -> 0x%08x\n", it->old_verdict, it->new_verdict);
}

static int compare(bool stricter, char **paths) {
    struct chain chain;
    struct skern_difference it;
    if (!read_chain(2, paths, &chain)) return TROUBLE;
    struct skern_fault fault = skern_compare(&chain.filters[0], 1, &chain.filters[1], 1, stricter, &it);
    free_chain(&chain);
    switch (fault.reason) {
    case SKERN_OK:
        printf("%s on every call\n", stricter ? "as strict" : "the same");
        return YES;
    case SKERN_DIFFER:
        show(&it);
        return NO;
    default:
        return no_answer(paths + fault.chain, fault);
    }
}

/* Makes the filter of a text. What is written is the filter, or what is wrong with the text. */
typedef struct skern_fault make(const char *text, size_t length, void *out, size_t room, size_t *size);

static struct skern_fault make_of_profile(const char *json, size_t length, void *out, size_t room, size_t *size) {
    struct skern_setting setting = {.kernel_major = 6, .kernel_minor = 12};
    return skern_profile(json, length, &setting, out, room, size);
}

static int made(make *making, char *path) {
    size_t length, size = 0;
    char *text = contents(path, &length);
    if (!text) return not_read(path, errno);
    char *out = malloc(MOST_BYTES);
    int status = TROUBLE;
    if (!out) {
        trouble(strerror(errno));
    } else {
        struct skern_fault fault = making(text, length, out, MOST_BYTES, &size);
        if (fault.reason == SKERN_OK) {
            status = fwrite(out, 1, size, stdout) == size ? YES : trouble(strerror(errno));
        } else if (fault.reason == SKERN_NO_MEMORY || size > MOST_BYTES) {
            no_answer(&path, fault);
        } else {
            fprintf(stderr, "filters: %s: refused %u ", path, fault.reason);
            fwrite(out, 1, size, stderr);
            fputc('\n', stderr);
        }
    }
    free(out);
    free(text);
    return status;
}

/* Tells the lines of `lint`, where there are such. */
static int told(char **paths, struct skern_fault fault, const char *lines, size_t size) {
    bool is_known = fault.reason == SKERN_OK || fault.reason == SKERN_WIDE;
    bool has_lines = is_known || fault.reason == SKERN_UNFOLLOWED || fault.reason == SKERN_SPENT;
    int status = fault.reason == SKERN_OK ? YES : fault.reason == SKERN_WIDE ? NO : no_answer(paths, fault);
    if (has_lines && fwrite(lines, 1, size, is_known ? stdout : stderr) != size) return trouble(strerror(errno));
    return status;
}

static int lint(int count, char **paths) {
    struct chain chain;
    if (!read_chain(count, paths, &chain)) return TROUBLE;
    size_t size = 0, room = MOST_BYTES;
    char *lines = malloc(room);
    struct skern_fault fault = {.reason = SKERN_NO_MEMORY};
    if (lines) fault = skern_lint(chain.filters, chain.count, lines, room, &size);
    if (size > room) {
        free(lines);
        room = size;
        lines = malloc(room);
        fault.reason = SKERN_NO_MEMORY;
        if (lines) fault = skern_lint(chain.filters, chain.count, lines, room, &size);
    }
    int status = told(paths, fault, lines, size);
    free(lines);
    free_chain(&chain);
    return status;
}

static int asked(const char *word, int count, char **words) {
    bool stricter = count == 3 && strcmp(words[0], "--stricter") == 0;
    if (count > 0 && strcmp(word, "check") == 0) return check(count, words);
    if (count > 0 && strcmp(word, "verdict") == 0) return verdict(words[0], count - 1, words + 1);
    if (strcmp(word, "compare") == 0 && (count == 2 || stricter)) return compare(stricter, words + stricter);
    if (count == 1 && strcmp(word, "profile") == 0) return made(make_of_profile, words[0]);
    if (count == 1 && strcmp(word, "policy") == 0) return made(skern_policy, words[0]);
    if (count > 0 && strcmp(word, "lint") == 0) return lint(count, words);
    return trouble("usage: filters check FILE.. | verdict CALLS FILE.. | compare [--stricter] OLD NEW | profile FILE | policy FILE | lint FILE..");
}

int main(int count, char **words) {
    int status = asked(count > 1 ? words[1] : "", count - 2, words + 2);
    return fflush(stdout) == 0 ? status : trouble(strerror(errno));
}
