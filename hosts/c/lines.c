/* A host: runs an image in slices, raises interrupt lines between them, and shows the machine after each slice.

   lines IMAGE-FILE STEPS MASK RAISED .. sets the mask once. Each RAISED stands for a slice of so many steps and names the lines that are
   raised before it, with commas between, or none with a -. The slices after those are run as they come, until the machine stops by itself
   or the image's own budget is spent. Before a slice the raised lines are printed; after it the bench program's line with all steps and
   cycles so far, and the mask, the waiting requests and the block; after the last slice the parameter cells too. */

#include <inttypes.h>
#include <stdio.h>
#include <stdlib.h>
#include <string.h>

#include "glidecotton.h"
#include "image.h"
#include "slice.h"

static int fail(const char *what, const char *why) {
    fprintf(stderr, "lines: %s: %s\n", what, why);
    return 1;
}

/* Raises the lines that a word names, one after another, and prints the word. Which numbers are lines the library judges. */
static int raise_lines(uint8_t *state, const char *named) {
    char *end = NULL;
    if (strcmp(named, "-") == 0) return 0;
    for (const char *at = named; !end || *end; at = end + 1) {
        uint64_t line = strtoull(at, &end, 10);
        if (end == at || (*end && *end != ',')) return fail(named, "lines are named by their numbers, with commas between");
        if (glidecotton_raise_line(state, GLIDECOTTON_STATE, line) != 0) return fail(named, "a line is 1 to 15");
    }
    printf("  raised %s\n", named);
    return 0;
}

static void show_lines(const uint8_t *state) {
    printf("  lines %" PRIu64 " %" PRIu64 " %" PRIu64 "\n", cell(state, GLIDECOTTON_MASK), cell(state, GLIDECOTTON_WAITING),
           cell(state, GLIDECOTTON_BLOCK));
}

/* Slices until the machine stops by itself or the image's own budget is spent. */
static int run_all(struct image *image, uint64_t slice, char **raised) {
    struct counted all = {0, 0, 0, image->sum};
    do {
        if (*raised && raise_lines(image->state, *raised++) != 0) return 1;
        uint64_t left = image->budget - all.steps;
        all = after(all, run_slice(image->state, image->memory, slice < left ? slice : left, all.sum));
        show_line(all, image->state);
        show_lines(image->state);
    } while (all.answer == 1 && all.steps < image->budget);
    show_cells(image->state);
    return *raised ? fail(*raised, "the program ended before this slice") : 0;
}

int main(int words, char **word) {
    static struct file file;
    static struct image image;
    char *end;
    if (words < 4) return fail("usage", "lines IMAGE-FILE STEPS MASK RAISED ..");
    uint64_t slice = strtoull(word[2], &end, 10);
    if (*end || slice < 1 || slice > GLIDECOTTON_BUDGET) return fail(word[2], "a slice is 1 to 1000000 steps");
    uint64_t mask = strtoull(word[3], &end, 10);
    if (*end || end == word[3]) return fail(word[3], "a mask is a number");
    if (!read_file(word[1], &file)) return fail(word[1], "can't be read");

    uint64_t refusal = read_image(&file, &image);
    int failed = 0;
    if (refusal != 0) printf("%" PRIu64 "\n", refusal);
    else if (glidecotton_set_mask(image.state, GLIDECOTTON_STATE, mask) != 0) failed = fail(word[3], "a mask is 0 to 65535");
    else failed = run_all(&image, slice, word + 4);
    return fflush(stdout) == 0 && !ferror(stdout) ? failed : fail("standard output", "can't be written");
}
