/* Writes the canonical text of sources with ton_canonicalize, and prints what it answers. */
#include "tonschnecke.h"

#include <inttypes.h>
#include <stdio.h>

#define CAPACITY 100

static void show(const char *source, size_t size, size_t room)
{
    uint64_t table[CAPACITY * TON_NODE_WORDS];
    uint8_t out[100] = {0};
    ton_writing w = ton_canonicalize((const uint8_t *)source, size, table, CAPACITY * TON_NODE_WORDS, out, room);
    if (w.code != TON_ACCEPTED) {
        printf("refused %" PRIu64 " at %" PRIu64 ": %s\n", w.code, w.at, ton_message(w.code));
        return;
    }
    printf("%" PRIu64 " bytes: %.*s\n", w.length, (int)w.length, (const char *)out);
}

int main(void)
{
    static const char plan[] = "a:02:{i:+0;s:04:\"node\";i:-01;R:02;}";
    static const char damaged[] = "a:02:{i:+0;s:04:\"node\";i:-01;R:03;}";
    /* as long as the plan is always enough */
    show(plan, sizeof plan - 1, sizeof plan - 1);
    /* one byte too small */
    show(plan, sizeof plan - 1, 29);
    show(damaged, sizeof damaged - 1, sizeof damaged - 1);
    /* a pointer may be null where its length is 0 */
    uint64_t table[TON_NODE_WORDS];
    printf("with no output: refused %" PRIu64 "\n",
           ton_canonicalize((const uint8_t *)"N;", 2, table, TON_NODE_WORDS, NULL, 0).code);
    return 0;
}
