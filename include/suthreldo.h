/* Suthreldo for C: the public calls of the rule judge (libsuthreldo.a, made by `tools/staticlib.sh`).
 *
 * What a call promises. It ends, reads and writes nothing but what it is lent, and answers for all inputs as its comment says.
 * `number` is 0 (SUTHRELDO_ACCEPTED) where the call is accepted. Else it is the number of the first question of the specification that
 * is answered no, every other field is 0, and no lent byte is altered. No call keeps a pointer, allocates, or calls itself; calls that
 * are lent different buffers may run at the same time. docs/CONTRACTS.md has the contracts, docs/REFUSALS.md the questions.
 *
 * What the caller must see to. A lent slice is a pointer and a length: no pointer is NULL, also where its length is 0; that many bytes
 * may be read there, and written where the parameter is not const; a buffer that is written overlaps no other argument.
 *
 * What memory a call needs: what it is lent, and the stack. A call works on the stack, and on nothing of its own besides. Each comment
 * says how many bytes of stack the call was seen to take at most (measured on x86-64 with the largest tables and the longest walks, with an
 * older kit and not again since, as docs/PERFORMANCE.md says; nothing is proved of it). A board that lends 256 scratch bytes must have the stack of the plain judge, too.
 * Two calls of the library are there from Rattle only: `judge_both` takes 7,152 bytes of stack, `judge_job` 7,632. */
#ifndef SUTHRELDO_H
#define SUTHRELDO_H

#include <stddef.h>
#include <stdint.h>

#ifdef __cplusplus
extern "C" {
#endif

/* The version of this interface. The first number changes when a call or a struct does, the second when a call is added. */
#define SUTHRELDO_VERSION_MAJOR 2
#define SUTHRELDO_VERSION_MINOR 2

/* The numbers of refusals, in the order in which they are asked. */
#define SUTHRELDO_ACCEPTED 0
#define SUTHRELDO_TABLE_TOO_SHORT 1     /* the table has less than four bytes */
#define SUTHRELDO_NUMBERS_OUT_OF_RANGE 2 /* n, m or k is out of range */
#define SUTHRELDO_START_MISFIT 3        /* the starting map is empty or has a bit from n up */
#define SUTHRELDO_CELL_MISSING 4        /* a cell byte is not there */
#define SUTHRELDO_CELL_MISFIT 5         /* a map has a bit from n up, or a set byte one from k up */
#define SUTHRELDO_TABLE_TOO_LONG 6      /* bytes stand behind the last cell */
#define SUTHRELDO_WALK_LENGTH 7         /* u or v has no allowed length */
#define SUTHRELDO_LETTER_OUT_OF_RANGE 8 /* a letter is not below m */
#define SUTHRELDO_NO_RECORD 9           /* the bytes are the record of no tree */
#define SUTHRELDO_GRID_MISFIT 11        /* the grid has not m·n·n bytes, or one does not fit */
#define SUTHRELDO_NO_ROOM 10            /* a lent buffer is too short */

/* Limits. */
#define SUTHRELDO_STATES 8       /* n is at most this */
#define SUTHRELDO_LETTERS 16     /* m */
#define SUTHRELDO_SETS 4         /* k */
#define SUTHRELDO_WALK 4096      /* letters of u, and of v, at most; v has at least one */
#define SUTHRELDO_TABLE 1156     /* bytes of the longest table */
#define SUTHRELDO_GRID 1024      /* bytes of the largest grid */
#define SUTHRELDO_NO_TRANSITION 255 /* a grid's byte for no transition */

/* What the lent buffers must hold. */
#define SUTHRELDO_RECORD 17      /* bytes for a tree's record */
#define SUTHRELDO_NAME 7         /* bytes for a node's name */
#define SUTHRELDO_NO_NAME 255    /* name length where the tree judge says no */
#define SUTHRELDO_SCRATCH 256    /* scratch bytes of the plain judge */

typedef struct { uint8_t number; size_t states, letters, sets; uint16_t start; } SuthreldoRead;
typedef struct { uint8_t number; size_t written; } SuthreldoWrite;
typedef struct { uint8_t number; size_t written; } SuthreldoStart;
typedef struct { uint8_t number; size_t written; uint16_t accepting, stable; } SuthreldoStep;
typedef struct { uint8_t number, verdict; uint64_t entry, period; uint8_t length; } SuthreldoTree;
typedef struct { uint8_t number, verdict; } SuthreldoPlain;
typedef struct { uint8_t number, same; } SuthreldoSame;
typedef struct { uint8_t number; uint16_t next, reached[SUTHRELDO_SETS]; } SuthreldoSuccessors;

/* Reads a rule table into grid bytes. Questions 1 to 6, then 10. Accepted: n, m, k and the map of starting states; the first
 * m·n·n bytes of `grid` are the rule's grid, the rest is unchanged. Stack: 2,424 bytes. */
SuthreldoRead suthreldo_read(const uint8_t *table, size_t table_length, uint8_t *grid, size_t grid_length);

/* Writes a rule's numbers and grid as a table. Questions 2, 3 and 11, then 10. Accepted: the table's length; its bytes stand at
 * the front of `table`, the rest is unchanged. Stack: 80 bytes. */
SuthreldoWrite suthreldo_write(size_t n, size_t m, size_t k, uint16_t start, const uint8_t *grid, size_t grid_length,
                               uint8_t *table, size_t table_length);

/* Where some states lead under a letter, and by which accepting sets. Questions 1 to 6, then 8. `states` is a map, bit q for state q; every
 * number is allowed, and bits from n up add nothing. Accepted: `next` is the map of the states r to which some state of `states` has a
 * transition under the letter; reached[i - 1], for i from 1 to k, is the map of those r to which one of these transitions belongs to set i;
 * reached has 0 for the sets from k + 1 up. So a letter can serve set i just where, with 0xFFFF for `states`, reached[i - 1] is not 0.
 * Stack: 2,600 bytes. */
SuthreldoSuccessors suthreldo_successors(const uint8_t *table, size_t table_length, uint8_t letter, uint16_t states);

/* The record of a table's starting tree. Questions 1 to 6, then 10. Accepted: the record's length; exactly the record is
 * written to the front of `buffer`, the rest unchanged. Stack: 2,264 bytes. */
SuthreldoStart suthreldo_start(const uint8_t *table, size_t table_length, uint8_t *buffer, size_t buffer_length);

/* One letter on the tree of a record. Questions 1 to 6, 8, 9, then 10. Accepted: the length of the next tree's record, which is
 * written to the front of `buffer`, the rest unchanged, and the maps of accepting and of stable nodes by old node number (bit i for
 * node i; only the low eight bits can stand). Stack: 2,768 bytes. */
SuthreldoStep suthreldo_step(const uint8_t *table, size_t table_length, uint8_t letter, const uint8_t *record, size_t record_length,
                             uint8_t *buffer, size_t buffer_length);

/* What a judge's answer depends on: n, m, k, the starting map, and the cells of the letters that occur in u or v. Under two accepted tables
 * that differ in other cells alone each of the two judges gives the same answer to a walk, a refusal too, if the lent buffers have the same
 * length; and the tree judge writes the same name. */

/* The tree judge. Questions 1 to 8, then 10. Accepted: entry and period of the first repeated tree at a round end.
 * verdict 1 (yes): some endless run of the rule over u and then v for ever goes through every accepting set infinitely often;
 * `length` numbers of the first witnessing node's name stand at the front of `names`, the rest is unchanged.
 * verdict 0 (no): there is no such run; `length` is 255 and `names` is unchanged.
 * Stack: 8,248 bytes. Time: mostly under a millisecond; the longest known is 1 to 3 seconds (docs/PERFORMANCE.md). */
SuthreldoTree suthreldo_tree_judge(const uint8_t *table, size_t table_length, const uint8_t *u, size_t u_length,
                                   const uint8_t *v, size_t v_length, uint8_t *names, size_t names_length);

/* The plain judge, which builds no tree. Questions 1 to 8, then 10. Accepted: verdict 1 exactly when there is such a run,
 * 0 exactly when there is none; the first 256 bytes of `scratch` are left zero, those past them unchanged.
 * Stack: 6,776 bytes. Time: linear in the walk's letters. */
SuthreldoPlain suthreldo_plain_judge(const uint8_t *table, size_t table_length, const uint8_t *u, size_t u_length,
                                     const uint8_t *v, size_t v_length, uint8_t *scratch, size_t scratch_length);

/* Are two walks one, spelled in two ways? Question 7 to the walk u, v, then to the walk u2, v2; no table is given, so every byte is a
 * letter. Accepted: same 1 exactly when the two have the same letter at every position of the endless sequence, else 0. Where it is 1,
 * accepted calls of the judges give the same verdict on both walks, and the tree judge the same node, whatever the table; entry and
 * period may differ.
 * Stack: 64 bytes. Time: linear in the walks' letters. */
SuthreldoSame suthreldo_same_walk(const uint8_t *u, size_t u_length, const uint8_t *v, size_t v_length,
                                  const uint8_t *u2, size_t u2_length, const uint8_t *v2, size_t v2_length);

#ifdef __cplusplus
}
#endif

#endif
