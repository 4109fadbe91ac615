/* The sentence of each code. */
#include "tonschnecke.h"

const char *ton_message(uint64_t code)
{
    /* those of Rust's Reason, to which a test of rust/tonschnecke holds them */
    static const char *const messages[] = {
        "accepted",
        "the plan is longer than 65,536 bytes",
        "the text that begins here is not of its kind's form, or the plan ends too soon",
        "a value begins with one of N b i d s a O r R",
        "a key begins with i or s in an array, and with s in an object",
        "the integer has more than 64 bits, or the number is above 65,536",
        "the reference names a number that no earlier value carries",
        "the table has no room for the node",
        "the value stands deeper than 64",
        "the container has this key already",
        "bytes follow the value (a newline at the end is one, too)",
        "the node is no array",
        "the place is above the array's count",
        "the key is not exactly one i or s, or the value not exactly one N, b, i, d or s",
        "the bytes to write exceed the output, or 65,536",
    };
    return code < sizeof messages / sizeof messages[0] ? messages[code] : "unknown code";
}
