/* Reads sources with ton_read and prints what it answers and what the table says. */
#include "tonschnecke.h"

#include <inttypes.h>
#include <stdio.h>

#define CAPACITY 100

static void show(const char *source, size_t size)
{
    uint64_t table[CAPACITY * TON_NODE_WORDS];
    ton_reading r = ton_read((const uint8_t *)source, size, table, CAPACITY * TON_NODE_WORDS);
    if (r.code != TON_ACCEPTED) {
        printf("refused %" PRIu64 " at %" PRIu64 ": %s\n", r.code, r.at, ton_message(r.code));
        return;
    }
    printf("%" PRIu64 " nodes, %" PRIu64 " ordinals\n", r.nodes, r.ordinals);
    for (uint64_t i = 0; i < r.nodes; i++) {
        const uint64_t *node = table + i * TON_NODE_WORDS;
        printf("%c, ordinal %" PRIu64 ", ends before node %" PRIu64 "\n", (int)node[0], node[1], node[5]);
    }
}

int main(void)
{
    static const char accepted[] = "a:2:{i:0;d:12.5;i:1;R:2;}";
    static const char damaged[] = "a:2:{i:0;d:12.5;i:1;R:3;}";
    show(accepted, sizeof accepted - 1);
    show(damaged, sizeof damaged - 1);
    /* a pointer may be null where its length is 0 */
    show(NULL, 0);
    printf("with no table: refused %" PRIu64 "\n", ton_read((const uint8_t *)"N;", 2, NULL, 0).code);
    return 0;
}
