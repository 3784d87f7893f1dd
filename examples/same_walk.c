/* Are two stored walks one? Lead-in and tail of each, a hexadecimal digit for a letter, - for no letters.
 *
 *     tools/staticlib.sh
 *     cc -Iinclude examples/same_walk.c target/staticlib/libsuthreldo.a -o target/same_walk && target/same_walk - 01 0 10
 *
 * The lead-in 0 and the tail 1 0 is the tail 0 1 with a letter moved: it prints "one walk". */
#include <stdio.h>
#include <string.h>
#include "suthreldo.h"

typedef struct { uint8_t letters[SUTHRELDO_WALK + 1]; size_t length; } Part;

/* The letters of a text. One letter more than is allowed is kept, so that the library can refuse it. 0 if there is another sign. */
static int part(const char *text, Part *to)
{
    static const char digits[] = "0123456789abcdef";
    to->length = 0;
    if (strcmp(text, "-") == 0)
        return 1;
    for (; *text && to->length <= SUTHRELDO_WALK; text++) {
        const char *digit = strchr(digits, *text);
        if (!digit)
            return 0;
        to->letters[to->length++] = (uint8_t)(digit - digits);
    }
    return 1;
}

int main(int argc, char **argv)
{
    static Part u, v, u2, v2;
    if (argc != 5 || !part(argv[1], &u) || !part(argv[2], &v) || !part(argv[3], &u2) || !part(argv[4], &v2))
        return fprintf(stderr, "usage: same_walk LEAD-IN TAIL LEAD-IN TAIL\n"), 2;
    SuthreldoSame answer = suthreldo_same_walk(u.letters, u.length, v.letters, v.length, u2.letters, u2.length, v2.letters, v2.length);
    if (answer.number != 0)
        return printf("refused %d\n", answer.number), 1;
    puts(answer.same ? "one walk" : "two walks");
    return 0;
}
