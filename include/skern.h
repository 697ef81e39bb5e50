/*
 * skern.h: proved answers about seccomp filters, for C.
 *
 * A filter is an array of struct sock_filter (linux/filter.h), as seccomp(2) takes it. A call is a struct
 * seccomp_data (linux/seccomp.h). All numbers are in the byte order of x86-64, for which the library is built.
 *
 * Nothing is kept between calls, and nothing is written but what a function's comment names. So threads may call side
 * by side. Memory comes from malloc(3) and is given back before a function returns. Do not call from a signal handler,
 * nor in the child of a fork(2) of a process with threads.
 *
 * A function was seen to take less than 32 KiB of stack, but for a comparison of filters that are made to be hard, of up to
 * 4 MiB. The library has no bound on it.
 *
 * A pointer to an array is not NULL, even where its count is 0. What a pointer leads to stays as it is while the
 * function runs, and what is written overlaps nothing else that is passed.
 *
 * `tools/library FOLDER` makes libskern.a, libskern.so and skern.pc.
 */
#ifndef SKERN_H
#define SKERN_H

#include <linux/filter.h>
#include <linux/seccomp.h>
#include <stdbool.h>
#include <stddef.h>
#include <stdint.h>

#ifdef __cplusplus
extern "C" {
#endif

/* What is said of filters. SKERN_OK and SKERN_DIFFER are answers, and every other number is a refusal. */
enum skern_reason {
    SKERN_OK = 0,          /* nothing is wrong; of two chains, that the question has the answer yes on every call */
    SKERN_EMPTY = 1,       /* a filter has no instruction */
    SKERN_TOO_LONG = 2,    /* it has more than 4096 */
    SKERN_CODE = 3,        /* a code is not permitted */
    SKERN_LOAD = 4,        /* no word of the call begins where an instruction loads one */
    SKERN_DIVISION = 5,    /* a division by the constant 0 */
    SKERN_SHIFT = 6,       /* a shift by a constant from 32 on */
    SKERN_WORD = 7,        /* there is no such scratch word */
    SKERN_JUMP = 8,        /* a jump out of the filter */
    SKERN_NO_RETURN = 9,   /* the last instruction is no return */
    SKERN_UNSTORED = 10,   /* a scratch word is loaded that some path has not stored */
    SKERN_RAGGED = 11,     /* the bytes are no multiple of 8 */
    SKERN_PATH_LIMIT = 12, /* the filters before it leave no room: seccomp(2), ENOMEM */
    SKERN_NO_MEMORY = 13,  /* malloc(3) gave nothing */
    SKERN_DIFFER = 14,     /* of two chains: not on the call that is shown */
    SKERN_UNFOLLOWED = 15, /* of two chains: not known, since a filter does what is not followed */
    SKERN_SPENT = 16,      /* of two chains: not known, since it would take too many steps */
    SKERN_NOT_TEXT = 17,   /* a profile is no text in UTF-8 */
    SKERN_NOT_JSON = 18,   /* it is no JSON, or nests deeper than is read */
    SKERN_KEY_TWICE = 19,  /* a key comes twice in one of its objects */
    SKERN_PROFILE = 20,    /* something else is wrong with it, or is not taken */
    SKERN_CLASH = 21,      /* two of its entries say different things of one call */
    SKERN_NO_ROOM = 22,    /* what is to be written takes more than there is room for */
    SKERN_POLICY = 23,     /* a policy's text is wrong */
    SKERN_WIDE = 24,       /* bits of arguments that Linux does not read change verdicts as they should not */
};

/* What is wrong, and where. All but `reason` is 0 where it says nothing. */
struct skern_fault {
    uint32_t reason; /* one of enum skern_reason */
    uint32_t chain;  /* 0: the only or the old chain; 1: the new one */
    size_t filter;   /* which filter of the chain, from 0 on */
    size_t place;    /* which instruction of the filter, from 0 on; or which line of a policy, from 1 on */
};

/* One filter: its instructions, and how many bytes they take, which is 8 for each. */
struct skern_filter {
    const void *insns;
    size_t bytes;
};

/* Whether one filter is valid, or its first fault. */
struct skern_fault skern_check(const void *insns, size_t bytes);

/*
 * What filters answer to calls, the oldest filter first. With SKERN_OK `verdicts[i]` is what they answer to `calls[i]`: the
 * value whose action has precedence by seccomp(2), with its data; without a filter it is SECCOMP_RET_ALLOW. Else nothing is
 * written. SKERN_NO_ROOM says that `room` is less than `call_count`. The filters are checked once for all calls, which takes as
 * long as some hundred verdicts: ask about many calls at once.
 */
struct skern_fault skern_verdict(const struct skern_filter *filters, size_t count, const struct seccomp_data *calls,
                                 size_t call_count, uint32_t *verdicts, size_t room);

/* A call to which two chains do not answer as is asked, and the verdict of each. */
struct skern_difference {
    struct seccomp_data call;
    uint32_t old_verdict;
    uint32_t new_verdict;
};

/*
 * Whether new filters answer every call of x86-64 as old ones do, or with `stricter` as strictly: no action of an old
 * verdict takes precedence over that of the new one. Each chain has its oldest filter first. With SKERN_OK they do so on
 * every call. With SKERN_DIFFER they do not, and `*difference` is a call that shows it; else it stays as it was. Of
 * filters as libseccomp makes them it is never SKERN_UNFOLLOWED. It is never SKERN_SPENT where all calls with one number
 * go one way through each filter. Beside themselves valid filters are SKERN_OK, whatever they do. A comparison may take
 * seconds.
 */
struct skern_fault skern_compare(const struct skern_filter *old_filters, size_t old_count,
                                 const struct skern_filter *new_filters, size_t new_count, bool stricter,
                                 struct skern_difference *difference);

/* Where a profile is to hold: the capabilities that are held, bit n for the one with the number n of linux/capability.h; the
 * version of the kernel; and whether runc attaches the filter. */
struct skern_setting {
    uint64_t capabilities;
    uint32_t kernel_major;
    uint32_t kernel_minor;
    bool runc;
};

/*
 * The filter of a container's profile, the JSON of docker, podman and their like: it answers to every call of x86-64 what
 * the profile says, and to every call of x32 and of i386 where the profile lists these. With SKERN_OK `*size` is how many
 * bytes the filter takes, and `out` has them. With SKERN_NO_ROOM `*size` says the same, and nothing is written. SKERN_MOST_BYTES
 * is room for each filter. With SKERN_NO_MEMORY nothing is written. With any other reason the profile is refused, and `*size` is
 * how many bytes it takes to say what is wrong and where, in UTF-8 with no zero byte at the end. `out` has them where there is
 * room for all, and else stays as it was.
 */
#define SKERN_MOST_BYTES 32768
struct skern_fault skern_profile(const char *json, size_t length, const struct skern_setting *setting, void *out,
                                 size_t room, size_t *size);

/*
 * The filter of a policy's text (docs/POLICIES.md): it answers to every call what the text says. What is written is as of
 * skern_profile. A refusal is SKERN_POLICY, and `place` is the line in which the sentence begins that is wrong, or 0 where none
 * is; the text names the line of the word. Or it is SKERN_TOO_LONG.
 */
struct skern_fault skern_policy(const char *text, size_t length, void *out, size_t room, size_t *size);

/*
 * Whether filters, the oldest first, tell calls of x86-64 and x32 apart by bits of arguments that Linux does not read. With
 * SKERN_OK no call gets a less strict verdict than the call that Linux takes it for. With SKERN_WIDE some may, or the sign of an
 * int is asked for, and the lines of `ask lint` say of which. With SKERN_UNFOLLOWED and SKERN_SPENT it is not known. With these
 * four `*size` is how many bytes the lines take, in UTF-8 with no zero byte at the end, and `text` has them where there is room
 * for all, and else stays as it was. With any other reason nothing is written.
 */
struct skern_fault skern_lint(const struct skern_filter *filters, size_t count, char *text, size_t room, size_t *size);

/*
 * The text of a reason, in ASCII. Gives how many bytes it takes with the zero byte at its end, and writes them where
 * there is room for all. Else it writes nothing. SKERN_TEXT is room for each.
 */
#define SKERN_TEXT 64
size_t skern_reason(uint32_t reason, char *text, size_t room);

#ifdef __cplusplus
}
#endif

#endif
