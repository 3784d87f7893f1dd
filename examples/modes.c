/* Which accepting sets can each mode of a rule serve? The rule's table in hexadecimal digits.
 *
 *     tools/staticlib.sh
 *     cc -Iinclude examples/modes.c target/staticlib/libsuthreldo.a -o target/modes && target/modes 0102020101010102
 *
 * That is the specification's table B. It prints:
 *
 *     mode  set 1  set 2
 *        0  yes    -
 *        1  -      yes
 *
 * A mode serves a set if some transition under it belongs to the set. "none" stands for a mode without any transition. */
#include <stdio.h>
#include <string.h>
#include "suthreldo.h"

#define ALL_STATES 0xFFFF

/* The bytes of a text in hexadecimal digits. One byte more than a table has is kept, so that the library can refuse it. 0 if the text is
 * no such text. */
static int bytes_of(const char *text, uint8_t *bytes, size_t *length)
{
    unsigned byte;
    *length = 0;
    if (strlen(text) % 2 || strspn(text, "0123456789abcdef") != strlen(text))
        return 0;
    for (; *text && *length <= SUTHRELDO_TABLE; text += 2) {
        sscanf(text, "%2x", &byte);
        bytes[(*length)++] = (uint8_t)byte;
    }
    return 1;
}

/* A mode's line: under each of the k sets, whether it serves the set. */
static void line(int mode, const SuthreldoSuccessors *answer, size_t k)
{
    printf("%4d", mode);
    for (size_t i = 0; i < k; i++)
        printf("  %-*s", i + 1 < k ? 5 : 0, answer->next == 0 ? "none" : answer->reached[i] ? "yes" : "-");
    putchar('\n');
}

int main(int argc, char **argv)
{
    static uint8_t table[SUTHRELDO_TABLE + 1], grid[SUTHRELDO_GRID];
    size_t length;
    if (argc != 2 || !bytes_of(argv[1], table, &length))
        return fprintf(stderr, "usage: modes TABLE\n"), 2;
    SuthreldoRead rule = suthreldo_read(table, length, grid, sizeof grid);
    if (rule.number != 0)
        return printf("refused %d\n", rule.number), 1;
    printf("mode");
    for (size_t i = 1; i <= rule.sets; i++)
        printf("  set %zu", i);
    putchar('\n');
    for (size_t mode = 0; mode < rule.letters; mode++) {
        SuthreldoSuccessors answer = suthreldo_successors(table, length, (uint8_t)mode, ALL_STATES);
        line((int)mode, &answer, rule.sets);
    }
    return 0;
}
