/* Calls ton_find with tables that are right, those of other plans, cut and damaged, and with paths of any bytes: each in memory
 * of exactly its size, so that sanitizers see what is read beyond it. Prints how many paths led somewhere. */
#include "tonschnecke.h"

#include <stdio.h>
#include <stdlib.h>
#include <string.h>

#define ROUNDS 400000
#define NODES 40
#define COUNT(array) (sizeof(array) / sizeof(array)[0])

static const char *const plans[] = {
    "N;",
    "a:2:{i:0;d:12.5;i:1;R:2;}",
    "a:3:{s:0:\"\";N;s:1:\"a\";a:1:{i:-1;a:1:{s:1:\"/\";N;}}s:2:\"ab\";b:1;}",
    "O:1:\"c\":3:{s:1:\"0\";N;s:3:\"%\"/\";a:0:{}s:2:\"ab\";O:1:\"c\":1:{s:1:\"a\";N;}}",
};
static const char *const paths[] = {"/", "/0", "/1", "/\"\"", "/a/-1/%2F", "/ab", "/a", "/\"0\"", "/%25%22%2f", "/ab/a", "/\"ab\"/%61"};

static uint64_t state = 1;

/* splitmix64 */
static uint64_t below(uint64_t bound)
{
    uint64_t mixed = state += 0x9E3779B97F4A7C15;
    mixed = (mixed ^ (mixed >> 30)) * 0xBF58476D1CE4E5B9;
    mixed = (mixed ^ (mixed >> 27)) * 0x94D049BB133111EB;
    return (mixed ^ (mixed >> 31)) % bound;
}

/* A copy in memory of its own; of no bytes, a null pointer. */
static void *alone(const void *bytes, size_t size)
{
    void *copy = size == 0 ? NULL : malloc(size);
    if (size != 0 && copy == NULL)
        exit(2);
    return size == 0 ? NULL : memcpy(copy, bytes, size);
}

/* A word that is likely to be taken for something. */
static uint64_t likely_word(size_t size)
{
    const uint64_t words[] = {below(NODES), below(NODES), size - 1, size, size + 1, 'a', 's', 'i', UINT64_MAX, UINT64_MAX / 6 + 1};
    return words[below(COUNT(words))];
}

/* One of the paths, often with a byte changed or cut off. */
static char *some_path(void)
{
    static const char bytes[] = "//\"%%0123afg-";
    const char *path = paths[below(COUNT(paths))];
    size_t size = strlen(path), cut = below(4) == 0 ? below(size) : size;
    char *copy = alone(path, cut + 1);
    copy[cut] = '\0';
    if (cut > 0 && below(2) == 0)
        copy[below(cut)] = bytes[below(sizeof bytes - 1)];
    return copy;
}

/* Whether a path led somewhere. */
static int round_of_one(void)
{
    uint64_t words[NODES * TON_NODE_WORDS] = {0};
    const char *plan = plans[below(COUNT(plans))], *other = below(2) ? plan : plans[below(COUNT(plans))];
    size_t size = strlen(plan), length = TON_NODE_WORDS * ton_read((const uint8_t *)other, strlen(other), words, COUNT(words)).nodes;
    for (uint64_t damage = below(3) * below(4); damage > 0; damage--)
        words[below(length)] = likely_word(size);
    length = below(2) ? length : below(length + 1);
    size = below(4) ? size : below(size + 1);
    uint8_t *source = alone(plan, size);
    uint64_t *table = alone(words, length * sizeof words[0]);
    char *path = some_path();
    size_t node = ton_find(source, size, table, length, path);
    if (node != TON_NOWHERE && node >= length / TON_NODE_WORDS) {
        fprintf(stderr, "find: node %zu in a table of %zu words, %s in %s\n", node, length, path, plan);
        exit(1);
    }
    free(source);
    free(table);
    free(path);
    return node != TON_NOWHERE;
}

int main(void)
{
    int found = 0;
    for (int round = 0; round < ROUNDS; round++)
        found += round_of_one();
    printf("%d of %d\n", found, ROUNDS);
    return found < ROUNDS / 20;
}
