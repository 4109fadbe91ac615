/* Puts days into a plan with ton_insert, and prints what it answers. */
#include "tonschnecke.h"

#include <inttypes.h>
#include <stdio.h>
#include <string.h>

#define CAPACITY 100

static void show(const char *source, size_t node, size_t place, const char *key, const char *value, size_t room)
{
    uint64_t table[CAPACITY * TON_NODE_WORDS];
    uint8_t out[100] = {0};
    ton_writing w = ton_insert((const uint8_t *)source, strlen(source), node, place, (const uint8_t *)key, strlen(key),
                               (const uint8_t *)value, strlen(value), table, CAPACITY * TON_NODE_WORDS, out, room);
    if (w.code != TON_ACCEPTED) {
        printf("refused %" PRIu64 " at %" PRIu64 ": %s\n", w.code, w.at, ton_message(w.code));
        return;
    }
    printf("%" PRIu64 " bytes: %.*s\n", w.length, (int)w.length, (const char *)out);
}

int main(void)
{
    static const char plan[] = "a:3:{i:0;d:1.5;i:1;d:2.5;i:2;R:3;}";
    /* before the pair at place 1: the R names the 2.5 as before, which has number 4 now */
    show(plan, 0, 1, "i:59;", "d:2;", 100);
    /* behind the last pair: no reference changes */
    show(plan, 0, 3, "i:59;", "d:2;", 100);
    /* the key is there, spelled another way */
    show(plan, 0, 3, "i:+02;", "d:2;", 100);
    /* node 1 is a key, and no array */
    show(plan, 1, 0, "i:59;", "d:2;", 100);
    /* place 4 is above the count */
    show(plan, 0, 4, "i:59;", "d:2;", 100);
    /* a float is no key */
    show(plan, 0, 3, "d:5;", "d:2;", 100);
    /* one byte too small */
    show(plan, 0, 1, "i:59;", "d:2;", 42);
    return 0;
}
