/*
 * The task `verdict` of native.c, by the library of skern.h: it takes the same text and writes the same line. In each round all
 * calls are one question.
 */
#include "skern.h"

#include <stdio.h>
#include <stdlib.h>
#include <string.h>

enum { MOST_BYTES = 0x100000, MOST_CALLS = 8192, MOST_FILTERS = 32 };

static struct seccomp_data calls[MOST_CALLS];
static struct skern_filter filters[MOST_FILTERS];
static uint32_t verdicts[MOST_CALLS];
static size_t call_count, filter_count;

static void fail(const char *why) {
    puts(why);
    exit(1);
}

/* The bytes that these digits write take the place of the digits. */
static size_t bytes_of(char *digits) {
    size_t size = strlen(digits) / 2;
    for (size_t at = 0; at < size; at++) {
        unsigned byte;
        if (sscanf((char[]){digits[2 * at], digits[2 * at + 1], 0}, "%2x", &byte) != 1) fail("not understood");
        digits[at] = (char)byte;
    }
    return size;
}

static void take(const char *name, char *digits) {
    size_t size = bytes_of(digits);
    if (!strcmp(name, "record") && size == sizeof *calls && call_count < MOST_CALLS) {
        memcpy(&calls[call_count++], digits, size);
    } else if (!strcmp(name, "filter") && filter_count < MOST_FILTERS) {
        void *insns = malloc(size + 1);
        if (!insns) fail("out of memory");
        filters[filter_count++] = (struct skern_filter){memcpy(insns, digits, size), size};
    } else {
        fail("not understood");
    }
}

/* Has all calls come from this address, so that no round is another's. */
static void move_to(uint32_t address) {
    for (size_t at = 0; at < call_count; at++) calls[at].instruction_pointer = address;
}

int main(void) {
    static char text[MOST_BYTES + 1];
    text[fread(text, 1, MOST_BYTES, stdin)] = 0;
    char *name = strtok(text, " "), *word = strtok(NULL, "\n");
    if (!name || strcmp(name, "verdict") || !word) fail("not understood");
    uint32_t rounds = (uint32_t)strtoul(word, NULL, 10), sum = 0;
    while ((name = strtok(NULL, " "))) {
        if (!(word = strtok(NULL, "\n"))) fail("not understood");
        take(name, word);
    }
    for (uint32_t round = 0; round < rounds; round++) {
        move_to(round);
        struct skern_fault fault = skern_verdict(filters, filter_count, calls, call_count, verdicts, MOST_CALLS);
        if (fault.reason != SKERN_OK) fail("a filter is refused");
        for (size_t at = 0; at < call_count; at++) sum = sum * 31 + verdicts[at];
    }
    printf("sum %u count %llu\n", sum, (unsigned long long)rounds * call_count);
    return 0;
}
