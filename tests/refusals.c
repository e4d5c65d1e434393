/* Every number that head_sentence gives a meaning has a name in enum head_refusal, and every name such a number. tools/header makes
 * refusal_cases.h, a `case` for each name of the enum: two names of one number do not compile. Ends with 1 where a number has only one
 * of the two. */
#include "head.h"

#include <stdio.h>
#include <string.h>

static int is_named(uint32_t number)
{
    switch (number) {
#include "refusal_cases.h"
        return 1;
    default:
        return 0;
    }
}

static int has_meaning(uint32_t number)
{
    static const char none[] = "no refusal has this number";
    uint8_t out[HEAD_SENTENCE_BYTES] = { 0 };
    uint64_t bytes = 0;

    head_sentence(number, out, sizeof out, &bytes);
    return bytes != sizeof none - 1 || memcmp(out, none, sizeof none - 1) != 0;
}

int main(void)
{
    unsigned long named = 0, wrong = 0;
    uint32_t number;

    for (number = 0; number <= 0xFFFF; number++) {
        if (is_named(number))
            named++;
        if (is_named(number) != has_meaning(number)) {
            wrong++;
            printf("%lu has a %s and no %s\n", (unsigned long)number, is_named(number) ? "name" : "sentence",
                   is_named(number) ? "sentence" : "name");
        }
    }
    printf("%lu numbers named, %lu wrong\n", named, wrong);
    return wrong != 0;
}
