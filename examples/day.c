/* Puts 29 February into a year's plan: the plan on standard input, the new one on standard output. */
#include "tonschnecke.h"

#include <inttypes.h>
#include <stdio.h>
#include <string.h>

#define LIMIT 65536
/* a node has two bytes or more, and a day more is two nodes: always enough */
#define WORDS (TON_NODE_WORDS * (LIMIT / 2 + 2))

static uint8_t plan[LIMIT + 1], out[LIMIT];
static uint64_t table[WORDS];

static int refused(uint64_t code, uint64_t at)
{
    fprintf(stderr, "refused %" PRIu64 " at %" PRIu64 ": %s\n", code, at, ton_message(code));
    return 1;
}

int main(void)
{
    static const char key[] = "i:29;", value[] = "d:9.5;";
    /* up to one byte too many, so that a plan too long is refused and not cut */
    size_t size = fread(plan, 1, sizeof plan, stdin);
    if (ferror(stdin)) {
        perror("standard input");
        return 2;
    }
    ton_reading r = ton_read(plan, size, table, WORDS);
    if (r.code != TON_ACCEPTED)
        return refused(r.code, r.at);
    size_t february = ton_find(plan, size, table, WORDS, "/months/2");
    if (february == TON_NOWHERE) {
        fputs("the plan has no /months/2\n", stderr);
        return 2;
    }
    uint64_t count = table[february * TON_NODE_WORDS + 4];
    ton_writing w = ton_insert(plan, size, february, count, (const uint8_t *)key, strlen(key), (const uint8_t *)value,
                               strlen(value), table, WORDS, out, LIMIT);
    if (w.code != TON_ACCEPTED)
        return refused(w.code, w.at);
    return fwrite(out, 1, w.length, stdout) == w.length && fflush(stdout) == 0 ? 0 : 2;
}
