/* The calls of lang_ast, for C and whatever links C, on x86-64 Linux. An answer is the number of the refusal, 0 when answered; only
   lang_ast_version and lang_ast_same_text, which refuse nothing, answer something else.

   Memory. A pointer and the length behind it are one argument: the length bytes from there on, at any address. Where the length is 0 the
   pointer may be NULL; any other pointer, and each that a number is written to, must lead to memory that is there. What is written to (a
   buffer, a number) must not overlap any other argument: not the image, not a table, not another buffer. A call writes to nothing else.
   Threads. There is no heap, and nothing is kept between calls: all memory is the caller's, so calls that write to different memory may run
   at the same time in different threads. A call cannot be stopped from outside: the budget, the most steps that it may take, is what
   bounds it.
   Stack. Calls recurse along the depth of the image. Measured, a level of nesting takes 129 bytes in lang_ast_name_resolution, 273 in
   lang_ast_analyze_condition (of the condition), and in lang_ast_name_dependencies and lang_ast_dependencies_need 257, or 273 where it is
   one of a condition; 2,056, 4,360 and 4,360 KiB are enough for any image (docs/PERFORMANCE.md). The others take no more for a deep image:
   at most 68 KiB.
   Numbers in tables and records have their most significant byte first; bytes of an answer buffer behind the answer stay as they are. */
#ifndef LANG_AST_H
#define LANG_AST_H

#include <stddef.h>
#include <stdint.h>

#ifdef __cplusplus
extern "C" {
#endif

/* The version of what the calls answer. It changes with the format of answers (the bytes of an image, a table or a record, the numbers of
   refusals, or what a call takes), and not with what is proved or how fast it is. lang_ast_version is the archive's: where it is not
   LANG_AST_VERSION, header and archive do not belong together, and a program must not use the calls. */
#define LANG_AST_VERSION 3u
uint32_t lang_ast_version(void);

/* Whether an image is accepted (0) or refused (docs/FORMAT.md): 1 its length, 2 its entry, 3 a text, 4 a name, 5 an expression, 6 an item's
   role, its name, whether it has an expression, or the order of items, 10 an item's expression whose number is not smaller than its
   owner's, 11 an Inherit of what is no Reference. They are asked in this order, and every other call asks them before all else. An image
   of length 0 is refused with 1. */
uint32_t lang_ast_check(const uint8_t *image, size_t length);

/* How deep an image is: *levels is how many expressions stand on the longest way down from its entry through items of all roles, 1 where it
   has none. Refusals 1 to 6, 10 and 11 as above, with nothing written. */
uint32_t lang_ast_levels(const uint8_t *image, size_t length, uint32_t *levels);

/* The binding index of an image: for each name 2 bytes, the expression that a binding gives it, or 16383. Needs 2 bytes a name. Refusals
   1 to 6, 10 and 11 as above, with the table untouched; 9 where the table is too short, with all of it set to zero. */
uint32_t lang_ast_module_indices(const uint8_t *image, size_t image_length, uint8_t *table, size_t table_length);

/* What each Reference of an image refers to: for each expression 2 bytes, a tag of 2 bits and a value of 14: 0 nothing (value 0), 1 a
   definition (its name), 2 a builtin (its place, 0 to 21), 3 the innermost With (its expression). Only References are not zero. The
   run's steps go to *steps. Needs 2 bytes an expression in the table, and 4 bytes an expression and 8 more for each scope made, the root
   included, in the working buffer, all of which is zero afterwards. Refusals 1 to 6, 10 and 11 as above, with nothing written; 8 where
   the steps exceed the budget; 9 where a buffer is too short. 8 and 9 set both buffers and *steps to zero. */
uint32_t lang_ast_name_resolution(const uint8_t *image, size_t image_length, uint32_t budget, uint8_t *table, size_t table_length,
                                  uint8_t *working, size_t working_length, uint32_t *steps);

/* What lang_ast_name_resolution needs of an image with this budget, without running it: the run's steps go to *steps, and how many scopes
   it makes, the root included, to *scopes, so that 4 bytes an expression and 8 * *scopes more are what its working buffer needs. Refusals 1
   to 6, 10 and 11 as above, with nothing written; 8 where the steps exceed the budget, with both numbers set to zero. */
uint32_t lang_ast_resolution_need(const uint8_t *image, size_t image_length, uint32_t budget, uint32_t *steps, size_t *scopes);

/* What a condition tells of names in each branch: the records of the then list and of the else list, 4 bytes each: a name of 14 bits, a
   sort of 4 (0 IsType, 1 IsNotType, 2 HasField, 3 NotHasField, 4 IsAttrSet, 5 IsList, 6 IsFunction, 7 IsNumber) and a value of 14 (a type
   0 Null, 1 Bool, 2 Int, 3 Float, 4 String, 5 Path; the key's text; else 0). IsNumber, an integer or a float, is what being equal to a
   number literal tells: 1 == 1.0 is true. a -> b tells what !a || b does. The tables are those that the two calls above write for this
   image, or any that keep their rules: 7 where one does not, has another length, or where the condition is no expression. What is
   selected from a Reference spelt builtins counts where its entry is the builtin at place 2, and tells nothing otherwise. *steps is the
   number of analysed nodes, *then_count and *else_count how many records each list has. Refusals 1 to 7, 10 and 11 write nothing; 8
   where the steps exceed the budget and 9 where a list is too short set both lists and the three numbers to zero. */
uint32_t lang_ast_analyze_condition(const uint8_t *image, size_t image_length, const uint8_t *resolutions, size_t resolutions_length,
                                    const uint8_t *bindings, size_t bindings_length, uint32_t condition, uint32_t budget,
                                    uint8_t *then_list, size_t then_length, uint8_t *else_list, size_t else_length,
                                    uint32_t *steps, uint32_t *then_count, uint32_t *else_count);

/* The walk over an image, with the tables of the calls above: in the order of visits the edges, 4 bytes each: from a binding's name 14
   bits, to the name that a Reference within it is resolved to 14, zero 4; and the narrowings in force where a binding stands, 8 bytes
   each: the binding's name 14, zero 18, a record of 32 as above. And for each name 2 bytes, the expression that the last visit of a
   binding gives it, or 16383. *steps is the number of visits and analysed nodes, *edge_count and *narrowing_count how many of each are
   written (of 2^32 narrowings and more, which take 32 GiB, the low 32 bits of the number). Needs 2 bytes a name in exprs, and 4 bytes in
   working for each narrowing in force at the point that has most; all of working is zero afterwards. 7 where a table does not keep its
   rules or has another length. Refusals 1 to 7, 10 and 11 write nothing; 8 where the steps exceed the budget and 9 where a buffer is too
   short set all four buffers and the three numbers to zero. */
uint32_t lang_ast_name_dependencies(const uint8_t *image, size_t image_length, const uint8_t *resolutions, size_t resolutions_length,
                                    const uint8_t *bindings, size_t bindings_length, uint32_t budget, uint8_t *edges, size_t edges_length,
                                    uint8_t *narrowings, size_t narrowings_length, uint8_t *exprs, size_t exprs_length,
                                    uint8_t *working, size_t working_length,
                                    uint32_t *steps, uint32_t *edge_count, uint32_t *narrowing_count);

/* What lang_ast_name_dependencies needs of an image and its tables with this budget: the run's steps go to *steps, how many edges and
   recorded narrowings it writes to *edges and *narrowings, and the most narrowings in force at a point to *most, so that 4 bytes an edge, 8 a
   narrowing, 2 a name and 4 * *most are what its buffers need. It takes the time of such a run. Refusals 1 to 7, 10 and 11 as above,
   with nothing written; 8 where the steps exceed the budget, with all four numbers set to zero. */
uint32_t lang_ast_dependencies_need(const uint8_t *image, size_t image_length, const uint8_t *resolutions, size_t resolutions_length,
                                    const uint8_t *bindings, size_t bindings_length, uint32_t budget,
                                    uint32_t *steps, size_t *edges, size_t *narrowings, size_t *most);

/* Whether two texts have the same bytes: 1 where they do, 0 where they do not. Lengths are compared first, then bytes from the last to the
   first, so that a long beginning that both share is not gone through where they end otherwise. *looked, which is always written, is how
   many pairs of bytes were looked at: 0 where the lengths differ, all where the texts are the same, otherwise those from the end up to and
   with the first that differs. Any bytes of any length; it needs no image, and the two texts may be the same memory. Bytes are fetched from
   the end up to 64 of each text at a time: at most 63 pairs beyond those counted are fetched, all of them within the block of the last
   one that is counted. */
uint32_t lang_ast_same_text(const uint8_t *a, size_t a_length, const uint8_t *b, size_t b_length, size_t *looked);

#ifdef __cplusplus
}
#endif

#endif
