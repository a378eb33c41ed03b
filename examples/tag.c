/*
 * Asks of two recipes whether their tag may rest on the colour card, and runs them.
 *
 *   cc -I include examples/tag.c -L target/staticlib -lmistdrover -o tag
 *   ./tag examples
 *
 * The argument names the folder of the example files (default: examples). Exit status: 0 as
 * expected; 1 a file cannot be read or something is refused.
 */
#include <inttypes.h>
#include <stdio.h>

#include "mistdrover.h"

#define TAG 0 /* the procedure that gives the tag */
#define INPUTS 4

static const char *const input_names[INPUTS] = {"glaze", "cloth", "card", "bench"};
static const char *const level_names[] = {"object", "card", "bench", "top"};
static const char *const ending_names[] = {"", "finished", "out of steps", "too deep"};

/* A file's bytes, one more than a book may have at most: a longer file is refused all the same. */
struct bytes {
    uint8_t data[MD_MOST_BOOK_BYTES + 1];
    size_t len;
};

static int read_file(const char *folder, const char *name, struct bytes *into) {
    char path[1024];
    FILE *file;
    if (snprintf(path, sizeof path, "%s/%s", folder, name) >= (int)sizeof path) {
        fprintf(stderr, "the name of the folder is too long\n");
        return 0;
    }
    file = fopen(path, "rb");
    if (file == NULL) {
        fprintf(stderr, "cannot read %s\n", path);
        return 0;
    }
    into->len = fread(into->data, 1, sizeof into->data, file);
    if (ferror(file)) {
        fprintf(stderr, "cannot read %s\n", path);
        fclose(file);
        return 0;
    }
    fclose(file);
    return 1;
}

/* Says what was refused; 1 if nothing was. */
static int not_refused(const char *asked, uint32_t refusal) {
    if (refusal != MD_NOT_REFUSED)
        printf("  %s: refused %" PRIu32 "\n", asked, refusal);
    return refusal == MD_NOT_REFUSED;
}

/* Runs the recipe on these inputs and prints the tag. */
static int show_run(const struct bytes *book, const uint32_t inputs[INPUTS]) {
    static uint32_t work[MD_WORK_CELLS];
    uint64_t answer[8];
    uint32_t refusal = md_run(book->data, book->len, TAG, inputs, INPUTS, MD_MOST_STEPS, work,
                              MD_WORK_CELLS, answer);
    if (!not_refused("run", refusal))
        return 0;
    printf("  glaze %" PRIu32 ", cloth %" PRIu32 ", card %" PRIu32 ", bench %" PRIu32, inputs[0],
           inputs[1], inputs[2], inputs[3]);
    printf(": %s, tag %" PRIu64 ", %" PRIu64 " steps\n", ending_names[answer[0]], answer[1],
           answer[2]);
    return 1;
}

static int show_recipe(const char *folder, const char *name) {
    static struct bytes book, table, levels;
    static const uint32_t dark[INPUTS] = {60, 50, 8, 100};
    static const uint32_t light[INPUTS] = {60, 50, 250, 100};
    uint8_t summary[MD_MOST_SUMMARY_BYTES];
    uint64_t answer[8];
    size_t size;
    int input;

    if (!read_file(folder, name, &book) || !read_file(folder, "diamond.table", &table) ||
        !read_file(folder, "photo.levels", &levels))
        return 0;

    printf("%s\n", name);
    if (!not_refused("read", md_read(book.data, book.len, answer)))
        return 0;
    printf("  a readable book of %zu bytes; its summaries have %" PRIu64 " bytes\n", book.len,
           answer[0]);

    if (!not_refused("find", md_find(book.data, book.len, summary, sizeof summary, answer)))
        return 0;
    size = (size_t)answer[0];
    printf("  summary found in %" PRIu64 " rounds\n", answer[1]);
    for (input = 0; input < INPUTS; input++)
        printf("  the tag %s on %s\n", summary[TAG] >> input & 1 ? "may rest" : "does not rest",
               input_names[input]);

    if (!not_refused("level", md_level(book.data, book.len, table.data, table.len, TAG, levels.data,
                                       levels.len, summary, size, answer)))
        return 0;
    if (answer[0] < sizeof level_names / sizeof *level_names)
        printf("  level %" PRIu64 ", %s\n", answer[0], level_names[answer[0]]);
    else
        printf("  level %" PRIu64 "\n", answer[0]);

    /* Two photographs that differ in the card's reading alone. */
    return show_run(&book, dark) && show_run(&book, light);
}

int main(int argc, char **argv) {
    const char *folder = argc > 1 ? argv[1] : "examples";
    return show_recipe(folder, "steady.book") && show_recipe(folder, "leaning.book") ? 0 : 1;
}
