/* A host: runs an image in slices of a given number of steps, and shows the machine after each slice.

   slices IMAGE-FILE STEPS prints the bench program's line after each slice, with all steps and cycles so far, and after the last
   one the parameter cells too. With one slice that is what the bench program prints. slices --sums IMAGE-FILE STEPS also prints the
   memory sum, before the first slice and below the line of each. */

#include <inttypes.h>
#include <stdio.h>
#include <stdlib.h>
#include <string.h>

#include "glidecotton.h"
#include "image.h"
#include "slice.h"

/* Slices until the machine stops by itself or the image's own budget is spent. */
static void run_all(struct image *image, uint64_t slice, int sums) {
    struct counted all = {0, 0, 0, image->sum};
    if (sums) show_sum(all.sum, image->memory);
    for (;;) {
        uint64_t left = image->budget - all.steps;
        all = after(all, run_slice(image->state, image->memory, slice < left ? slice : left, all.sum));
        show_line(all, image->state);
        if (sums) show_sum(all.sum, image->memory);
        if (all.answer != 1 || all.steps == image->budget) break;
    }
    show_cells(image->state);
}

static int fail(const char *what, const char *why) {
    fprintf(stderr, "slices: %s: %s\n", what, why);
    return 1;
}

int main(int words, char **word) {
    static struct file file;
    static struct image image;
    char *end;
    int sums = words > 1 && strcmp(word[1], "--sums") == 0;
    words -= sums;
    word += sums;
    if (words != 3) return fail("usage", "slices [--sums] IMAGE-FILE STEPS");
    uint64_t slice = strtoull(word[2], &end, 10);
    if (*end || slice < 1 || slice > GLIDECOTTON_BUDGET) return fail(word[2], "a slice is 1 to 1000000 steps");
    if (!read_file(word[1], &file)) return fail(word[1], "can't be read");

    uint64_t refusal = read_image(&file, &image);
    if (refusal != 0) printf("%" PRIu64 "\n", refusal);
    else run_all(&image, slice, sums);
    return fflush(stdout) == 0 && !ferror(stdout) ? 0 : fail("standard output", "can't be written");
}
