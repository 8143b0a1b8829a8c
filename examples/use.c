/* use.c FILE: the edges and the recorded narrowings of an image, as ./survey prints them. How to build it: README.md.
   Exit status: 0 answered, 1 refused, 2 wrong use, an unreadable file, no memory, or an archive of another version than the header. */
#include <stdint.h>
#include <stdio.h>
#include <stdlib.h>
#include <lang_ast.h>

#define LONGEST 5505015u /* bytes of the largest image */
#define BUDGET 65535u    /* steps; 8 is answered where a run needs more */

static uint32_t number(const uint8_t *bytes) /* 4 bytes, most significant first */
{
    return (uint32_t)bytes[0] << 24 | (uint32_t)bytes[1] << 16 | (uint32_t)bytes[2] << 8 | bytes[3];
}

static uint8_t *room(size_t bytes) /* one byte at least: malloc(0) may be NULL */
{
    uint8_t *memory = malloc(bytes + 1);
    if (memory == NULL) {
        fputs("no memory\n", stderr);
        exit(2);
    }
    return memory;
}

static int refused(const char *call, uint32_t refusal)
{
    if (refusal != 0)
        fprintf(stderr, "%s: refused %u\n", call, (unsigned)refusal);
    return refusal != 0;
}

int main(int count, char **words)
{
    if (lang_ast_version() != LANG_AST_VERSION) {
        fprintf(stderr, "the header has version %u, the archive %u\n", LANG_AST_VERSION, (unsigned)lang_ast_version());
        return 2;
    }
    FILE *file = count == 2 ? fopen(words[1], "rb") : NULL;
    if (file == NULL) {
        fputs("usage: use FILE\n", stderr);
        return 2;
    }
    uint8_t *image = room(LONGEST + 1);
    size_t length = fread(image, 1, LONGEST + 1, file);
    if (ferror(file)) {
        perror(words[1]);
        return 2;
    }
    fclose(file);
    if (refused("check", lang_ast_check(image, length)))
        return 1;

    /* An accepted image has a header: expressions E and names N, 14 bits each. */
    size_t e = number(image) >> 18, n = (number(image) >> 4) & 16383;
    uint8_t *bindings = room(2 * n), *resolutions = room(2 * e);
    if (refused("index", lang_ast_module_indices(image, length, bindings, 2 * n)))
        return 1;

    /* 4 bytes an expression, and 8 a scope: a step makes one at most, and the root is one more. */
    size_t working = 4 * e + 8 * (BUDGET + 1);
    uint8_t *scopes = room(working);
    uint32_t steps, edge_count, narrowing_count;
    if (refused("resolution", lang_ast_name_resolution(image, length, BUDGET, resolutions, 2 * e, scopes, working, &steps)))
        return 1;

    /* How much a walk writes is not known beforehand: where 9 is answered, again with twice the room. */
    uint8_t *edges = NULL, *narrowings = NULL, *exprs = room(2 * n), *in_force = NULL;
    uint32_t answer = 9;
    for (size_t records = e + 1; answer == 9 && records < (size_t)1 << 24; records *= 2) {
        free(edges), free(narrowings), free(in_force);
        edges = room(4 * records), narrowings = room(8 * records), in_force = room(4 * records);
        answer = lang_ast_name_dependencies(image, length, resolutions, 2 * e, bindings, 2 * n, BUDGET, edges, 4 * records, narrowings,
                                            8 * records, exprs, 2 * n, in_force, 4 * records, &steps, &edge_count, &narrowing_count);
    }
    if (refused("walk", answer))
        return 1;
    for (uint8_t *edge = edges; edge < edges + 4 * (size_t)edge_count; edge += 4)
        printf("edge %u %u\n", (unsigned)(number(edge) >> 18), (unsigned)(number(edge) >> 4 & 16383));
    for (uint8_t *record = narrowings; record < narrowings + 8 * (size_t)narrowing_count; record += 8)
        printf("narrow %u %u %u %u\n", (unsigned)(number(record) >> 18), (unsigned)(number(record + 4) >> 18),
               (unsigned)(number(record + 4) >> 14 & 15), (unsigned)(number(record + 4) & 16383));
    return 0;
}
