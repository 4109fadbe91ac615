/* Finds a node by a path of keys. No byte outside of what is lent is read, whatever the table says: each index is compared
 * before it is used. And it ends: every node looked at stands behind the one before. */
#include "tonschnecke.h"

#include <stdbool.h>

/* A component of a path: an integer key, or the string key that begin to end spell. */
typedef struct {
    bool is_integer;
    uint64_t integer; /* two's complement, as in a node */
    const char *begin, *end;
    size_t length; /* of the string, in bytes: an escape is one */
} component;

/* What ton_find looks into. */
typedef struct {
    const uint8_t *source;
    size_t source_len;
    const uint64_t *table;
    size_t nodes;
} plan;

static int hex_digit(char digit)
{
    if (digit >= '0' && digit <= '9')
        return digit - '0';
    if (digit >= 'a' && digit <= 'f')
        return digit - 'a' + 10;
    return digit >= 'A' && digit <= 'F' ? digit - 'A' + 10 : -1;
}

/* The byte of a string key that is spelled at *text, which is moved behind it; -1 if none is. Behind a component stands a
 * slash, a quote or the path's NUL, and none of them is a digit. */
static int next_byte(const char **text)
{
    const char *at = *text;
    int high, low;
    if (*at != '%') {
        *text = at + 1;
        return *at == '"' ? -1 : (unsigned char)*at;
    }
    high = hex_digit(at[1]);
    low = high < 0 ? -1 : hex_digit(at[2]);
    *text = at + 3;
    return low < 0 ? -1 : high * 16 + low;
}

/* Whether the component is the shortest decimal form of an integer of 64 bits. */
static bool parse_integer(component *key)
{
    bool negative = *key->begin == '-';
    const char *digit = key->begin + negative;
    uint64_t magnitude = 0, limit = ((uint64_t)1 << 63) - !negative;
    if (digit == key->end || (*digit == '0' && (negative || key->end - digit > 1)))
        return false;
    for (; digit != key->end; digit++) {
        uint64_t value = (uint64_t)(*digit - '0');
        if (*digit < '0' || *digit > '9' || magnitude > (limit - value) / 10)
            return false;
        magnitude = magnitude * 10 + value;
    }
    key->integer = negative ? 0 - magnitude : magnitude;
    return true;
}

/* Whether the component is a string key, in quotes or without. */
static bool parse_string(component *key)
{
    const char *text;
    if (key->end - key->begin > 1 && *key->begin == '"' && key->end[-1] == '"') {
        key->begin++;
        key->end--;
    }
    for (text = key->begin; text != key->end; key->length++)
        if (next_byte(&text) < 0)
            return false;
    return true;
}

/* Whether the component is a key. */
static bool parse(component *key)
{
    if (key->begin == key->end)
        return false;
    key->is_integer = parse_integer(key);
    return key->is_integer || parse_string(key);
}

/* Whether this node, a key, is the component's. */
static bool is_key(const plan *lent, const uint64_t *node, const component *key)
{
    const char *text = key->begin;
    size_t byte;
    if (key->is_integer)
        return node[0] == 'i' && node[2] == key->integer;
    if (node[0] != 's' || node[3] != key->length)
        return false;
    if (node[2] > lent->source_len || node[3] > lent->source_len - node[2])
        return false;
    for (byte = 0; byte < key->length; byte++)
        if (next_byte(&text) != lent->source[node[2] + byte])
            return false;
    return true;
}

/* The node of the value that this container has under the key. */
static size_t value_of(const plan *lent, size_t container, const component *key)
{
    const uint64_t *node = lent->table + container * TON_NODE_WORDS;
    uint64_t pairs = node[0] == 'a' || node[0] == 'O' ? node[4] : 0;
    uint64_t at = container + 1;
    for (; pairs > 0 && at < lent->nodes - 1; pairs--) {
        uint64_t next = lent->table[(at + 1) * TON_NODE_WORDS + 5];
        if (is_key(lent, lent->table + at * TON_NODE_WORDS, key))
            return (size_t)at + 1;
        if (next <= at + 1)
            break;
        at = next;
    }
    return TON_NOWHERE;
}

size_t ton_find(const uint8_t *source, size_t source_len, const uint64_t *table, size_t table_len, const char *path)
{
    plan lent = {source, source_len, table, table_len / TON_NODE_WORDS};
    size_t node = 0;
    /* the first node holds all others; behind them the table keeps what it held */
    if (lent.nodes > 0 && table[5] < lent.nodes)
        lent.nodes = (size_t)table[5];
    if (lent.nodes == 0 || path[0] != '/')
        return TON_NOWHERE;
    if (path[1] == '\0')
        return 0;
    while (node != TON_NOWHERE && *path == '/') {
        component key = {false, 0, path + 1, path + 1, 0};
        while (*key.end != '\0' && *key.end != '/')
            key.end++;
        path = key.end;
        node = parse(&key) ? value_of(&lent, node, &key) : TON_NOWHERE;
    }
    return node;
}
