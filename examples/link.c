/* Assembles files, links them one after another and prints the listing of the result: link FILE... */
#include <stdio.h>
#include "object.h"

/* What is linked so far, the next file's, and their link. All zero is an object with nothing. */
static struct object linked, next, both;
static uint8_t src[LC3_SOURCE + 1], text[2 * 1024 * 1024];

static int add(const char *path) {
    uint64_t a[LC3_ANSWER];
    FILE *file = fopen(path, "rb");
    if (file == NULL) {
        perror(path);
        return -1;
    }
    size_t size = fread(src, 1, sizeof src, file);
    fclose(file);
    lc3_assemble(src, size, BUFFERS(&next), a);
    if (made(&next, a) == LC3_ACCEPTED) {
        lc3_link(LENT(&linked), LENT(&next), BUFFERS(&both), a);
        made(&both, a);
        linked = both;
    }
    return (int)a[LC3_NUMBER];
}

int main(int argc, char **argv) {
    uint64_t a[LC3_ANSWER];
    for (int i = 1; i < argc; i++) {
        int number = add(argv[i]);
        if (number != LC3_ACCEPTED) {
            printf("REFUSED %d\n", number);
            return 1;
        }
    }
    lc3_list(LENT(&linked), text, sizeof text, a);
    fwrite(text, 1, a[LC3_FIRST_COUNT], stdout);
    return 0;
}
