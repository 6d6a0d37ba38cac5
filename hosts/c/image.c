#include "image.h"

#include <stdio.h>

#include "buffers.h"

int read_file(const char *name, struct file *file) {
    FILE *from = fopen(name, "rb");
    if (!from) return 0;
    file->length = fread(file->bytes, 1, sizeof file->bytes, from);
    int failed = ferror(from);
    fclose(from);
    return !failed;
}

uint64_t read_image(const struct file *file, struct image *image) {
    uint8_t result[GLIDECOTTON_READ_RESULT];
    uint64_t answer = glidecotton_read_image(file->bytes, file->length, image->memory, sizeof image->memory, image->state,
                                             sizeof image->state, result, sizeof result);
    if (answer == 0) {
        image->budget = pointer(result, GLIDECOTTON_READ_BUDGET);
        image->sum = pointer(result, GLIDECOTTON_READ_SUM);
    }
    return answer;
}
