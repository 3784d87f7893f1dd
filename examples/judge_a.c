/* Judges table A of the specification, lead-in empty, tail 1, with both judges.
 *
 *     tools/staticlib.sh
 *     cc -Iinclude examples/judge_a.c target/staticlib/libsuthreldo.a -o target/judge_a && target/judge_a
 */
#include <stdio.h>
#include "suthreldo.h"

static const uint8_t table_a[] = {2, 2, 1, 1, 1, 0, 0, 3, 0, 0, 2, 1};
static const uint8_t tail[] = {1};
static uint8_t scratch[SUTHRELDO_SCRATCH];

int main(void)
{
    uint8_t names[SUTHRELDO_NAME];
    SuthreldoTree tree = suthreldo_tree_judge(table_a, sizeof table_a, tail, 0, tail, sizeof tail, names, sizeof names);
    SuthreldoPlain plain = suthreldo_plain_judge(table_a, sizeof table_a, tail, 0, tail, sizeof tail, scratch, sizeof scratch);
    if (tree.number != 0 || plain.number != 0) {
        printf("refused %d %d\n", tree.number, plain.number);
        return 1;
    }
    printf("tree judge: %s, entry %llu, period %llu\n", tree.verdict ? "yes" : "no", (unsigned long long)tree.entry,
           (unsigned long long)tree.period);
    if (tree.length != SUTHRELDO_NO_NAME) {
        printf("node:");
        for (int i = 0; i < tree.length; i++)
            printf(" %d", names[i]);
        printf("\n");
    }
    printf("plain judge: %s\n", plain.verdict ? "yes" : "no");
    return 0;
}
