/* An image file as a host holds it: its bytes, and what the library reads from them. */

#ifndef IMAGE_H
#define IMAGE_H

#include "glidecotton.h"

struct file {
    uint8_t bytes[GLIDECOTTON_LONGEST_IMAGE + 1];
    size_t length;
};

struct image {
    uint8_t memory[GLIDECOTTON_MEMORY];
    uint8_t state[GLIDECOTTON_STATE];
    uint64_t budget, sum;
};

/* Whether the file could be read. Of a file that is longer than every good image one byte more is kept, so that it is refused. */
int read_file(const char *name, struct file *file);

/* 0 with the image filled, or the number of the refusal with the image untouched. */
uint64_t read_image(const struct file *file, struct image *image);

#endif
