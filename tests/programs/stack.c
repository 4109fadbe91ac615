/* Prints how many bytes of stack each function of the header takes: on a stack that was painted before, with what takes the
 * most, nesting as deep as it may be and a crowd of keys that do not rise. */
#define _XOPEN_SOURCE 700
#include "tonschnecke.h"

#include <stdio.h>
#include <stdlib.h>
#include <string.h>
#include <ucontext.h>

#define LIMIT 65536
#define WORDS (TON_NODE_WORDS * (LIMIT / 2 + 2))
#define PAINT 0xA5

static unsigned char stack[4 * LIMIT];
static uint8_t plan[LIMIT], out[LIMIT];
static uint64_t table[WORDS];
static size_t size;
static char path[200];

/* what the calls answer */
static uint64_t code;
static size_t node;
static const char *text;

static void read_plan(void)
{
    code = ton_read(plan, size, table, WORDS).code;
}

static void canonicalize(void)
{
    code = ton_canonicalize(plan, size, table, WORDS, out, LIMIT).code;
}

static void insert(void)
{
    code = ton_insert(plan, size, 0, 1, (const uint8_t *)"s:1:\"k\";", 8, (const uint8_t *)"d:1.5;", 6, table, WORDS, out, LIMIT).code;
}

static void find(void)
{
    node = ton_find(plan, size, table, WORDS, path);
}

static void message(void)
{
    text = ton_message(code);
}

static void add(const char *part)
{
    memcpy(plan + size, part, strlen(part));
    size += strlen(part);
}

/* Arrays in each other to depth 63, the innermost with values of every kind, and what stands deepest behind them. */
static void write_plan(const char *deepest)
{
    static const char *const values[] = {"N;", "b:1;", "i:-07;", "d:1.5;", "s:01:\"x\";", "R:01;", "O:1:\"c\":00:{}", "a:00:{}"};
    char pair[50];
    size = 0;
    for (int depth = 1; depth < 63; depth++)
        add("a:1:{i:0;");
    add("a:2001:{");
    for (int i = 0; i < 2000; i++) {
        snprintf(pair, sizeof pair, i % 3 ? "i:%05d;%s" : "s:5:\"%05d\";%s", i * 7919 % 100000, values[i % 8]);
        add(pair);
    }
    add("s:4:\"deep\";");
    add(deepest);
    for (int depth = 1; depth < 64; depth++)
        add("}");
}

/* How many bytes of stack a call takes, that of its pointer included. */
static size_t taken(void (*call)(void))
{
    ucontext_t here, there;
    size_t untouched = 0;
    memset(stack, PAINT, sizeof stack);
    getcontext(&there);
    there.uc_stack.ss_sp = stack;
    there.uc_stack.ss_size = sizeof stack;
    there.uc_link = &here;
    makecontext(&there, call, 0);
    swapcontext(&here, &there);
    while (stack[untouched] == PAINT)
        untouched++;
    return sizeof stack - untouched;
}

/* The most that a call takes over the plans, of which the first is accepted and the others are refused where they are
 * deepest. */
static size_t most(void (*call)(void))
{
    static const char *const deepest[] = {"a:0:{}", "a:1:{i:5;N;}", "a:1:{s:1:\"k\";N;}", "O:1:\"c\":1:{s:1:\"k\";N;}"};
    size_t bytes = 0;
    for (size_t i = 0; i < sizeof deepest / sizeof deepest[0]; i++) {
        write_plan(deepest[i]);
        size_t these = taken(call);
        if (code != (i == 0 ? TON_ACCEPTED : TON_TOO_DEEP)) {
            fprintf(stderr, "stack: plan %zu has code %d\n", i, (int)code);
            exit(1);
        }
        bytes = these > bytes ? these : bytes;
    }
    return bytes;
}

int main(void)
{
    printf("ton_canonicalize %zu\n", most(canonicalize));
    printf("ton_insert %zu\n", most(insert));
    printf("ton_read %zu\n", most(read_plan));
    write_plan("a:0:{}");
    read_plan();
    for (int depth = 1; depth < 63; depth++)
        strcat(path, "/0");
    strcat(path, "/\"%64e%65p\"");
    printf("ton_find %zu\n", taken(find));
    printf("ton_message %zu\n", taken(message));
    return node == TON_NOWHERE || text == NULL;
}
