/* notice FIRST SECOND IMAGE..: prints the images whose text is not that of the file .expected beside them.
   The two numbers are for alterations that ask for them. A child runs image after image; where the interpreter breaks
   down or never ends, that image has noticed, and another child goes on after it. */

#define _DEFAULT_SOURCE
#include <stdio.h>
#include <stdlib.h>
#include <sys/mman.h>
#include <sys/wait.h>
#include <unistd.h>

static unsigned long FIRST_VALUE, SECOND_VALUE;

#include "plain.c"

enum { LONGEST_FILE = 40000, SECONDS = 2, NOISE = 0xAA };

static size_t read_file(const char *name, uint8_t *to) {
    FILE *file = fopen(name, "rb");
    if (!file) exit(2);
    size_t length = fread(to, 1, LONGEST_FILE, file);
    fclose(file);
    return length;
}

static int as_expected(const char *name) {
    static uint8_t image[LONGEST_FILE], expected[LONGEST_FILE], memory[MEMORY], text[TEXT_BYTES];
    char beside[1000];
    snprintf(beside, sizeof beside, "%.*s.expected", (int)(strrchr(name, '.') - name), name);
    size_t wanted = read_file(beside, expected);
    memset(memory, NOISE, sizeof memory);
    uint64_t length = plain_bench(image, read_file(name, image), memory, sizeof memory, text, sizeof text);
    return length == wanted && memcmp(text, expected, wanted) == 0;
}

int main(int count, char **words) {
    int *at = mmap(NULL, sizeof *at, PROT_READ | PROT_WRITE, MAP_SHARED | MAP_ANONYMOUS, -1, 0);
    if (count < 3 || at == MAP_FAILED) return 2;
    FIRST_VALUE = strtoul(words[1], NULL, 0);
    SECOND_VALUE = strtoul(words[2], NULL, 0);
    setbuf(stdout, NULL);
    for (*at = 3; *at < count; ++*at) {
        int status = 0;
        pid_t child = fork();
        if (child == 0) {
            for (; *at < count; ++*at) {
                alarm(SECONDS);
                if (!as_expected(words[*at])) puts(words[*at]);
            }
            _exit(0);
        }
        if (child < 0 || waitpid(child, &status, 0) != child) return 2;
        if (status != 0) puts(words[*at]);
    }
    return 0;
}
