/* How many bytes of stack each call takes on a job: table, lead-in and tail of a file as docs/JOBS.md describes it.
 *
 *     tools/staticlib.sh
 *     cc -O2 -Iinclude examples/stack.c target/staticlib/libsuthreldo.a -o target/stack && target/stack crates/judge_longest/stdin
 *
 * Each call runs on a stack of its own that was filled with one byte; what is no longer that byte was used. A call that does nothing
 * is measured too, and its bytes are taken off. */
#include <stdio.h>
#include <stdlib.h>
#include <string.h>
#include <ucontext.h>
#include "suthreldo.h"

enum { STACK = 1 << 20, FILL = 0xa5 };

static uint8_t job[1 << 16], table_out[SUTHRELDO_TABLE], grid[SUTHRELDO_GRID], record[SUTHRELDO_RECORD], next[SUTHRELDO_RECORD];
static uint8_t names[SUTHRELDO_NAME], scratch[SUTHRELDO_SCRATCH];
static const uint8_t *table, *u, *v;
static size_t table_length, u_length, v_length, record_length;
static SuthreldoRead rule;
static ucontext_t back, on;
static unsigned number;

static void nothing(void) { number = 0; }
static void do_read(void) { rule = suthreldo_read(table, table_length, grid, sizeof grid); number = rule.number; }
static void do_write(void)
{
    size_t n = rule.states, m = rule.letters;
    number = suthreldo_write(n, m, rule.sets, rule.start, grid, m * n * n, table_out, sizeof table_out).number;
}
static void do_start(void)
{
    SuthreldoStart answer = suthreldo_start(table, table_length, record, sizeof record);
    record_length = answer.written, number = answer.number;
}
static void do_step(void)
{
    number = suthreldo_step(table, table_length, v[0], record, record_length, next, sizeof next).number;
}
static void do_tree(void)
{
    number = suthreldo_tree_judge(table, table_length, u, u_length, v, v_length, names, sizeof names).number;
}
static void do_plain(void)
{
    number = suthreldo_plain_judge(table, table_length, u, u_length, v, v_length, scratch, sizeof scratch).number;
}
static void do_successors(void)
{
    number = suthreldo_successors(table, table_length, v[0], 0xFFFF).number;
}
static void do_same(void)
{
    number = suthreldo_same_walk(u, u_length, v, v_length, u, u_length, v, v_length).number;
}

/* The bytes of a stack of its own that a call uses. */
static size_t used(void (*call)(void))
{
    static uint8_t stack[STACK];
    memset(stack, FILL, STACK);
    getcontext(&on);
    on.uc_stack.ss_sp = stack, on.uc_stack.ss_size = STACK, on.uc_link = &back;
    makecontext(&on, call, 0);
    swapcontext(&back, &on);
    size_t kept = 0;
    while (kept < STACK && stack[kept] == FILL)
        kept++;
    return STACK - kept;
}

/* The part whose length stands at a place; the place behind it. */
static size_t part(size_t at, const uint8_t **bytes, size_t *length)
{
    *length = job[at] + 256u * job[at + 1], *bytes = job + at + 2;
    return at + 2 + *length;
}

int main(int argc, char **argv)
{
    FILE *file = argc == 2 ? fopen(argv[1], "rb") : NULL;
    if (!file || fread(job, 1, sizeof job, file) < 6)
        return fprintf(stderr, "usage: stack JOB\n"), 2;
    part(part(part(0, &table, &table_length), &u, &u_length), &v, &v_length);
    used(nothing);
    size_t none = used(nothing);
    const struct { const char *name; void (*call)(void); } calls[] = {
        {"read", do_read}, {"write", do_write}, {"start", do_start}, {"step", do_step}, {"tree judge", do_tree}, {"plain judge", do_plain},
        {"same walk", do_same}, {"successors", do_successors},
    };
    for (size_t i = 0; i < sizeof calls / sizeof calls[0]; i++) {
        used(calls[i].call); /* the first time the system binds what the call uses, on the same stack */
        size_t bytes = used(calls[i].call) - none;
        printf("%-12s %6zu bytes, number %u\n", calls[i].name, bytes, number);
    }
    return 0;
}
