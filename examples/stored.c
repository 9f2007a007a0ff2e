/* Assembles a file, stores the object and loads it again, and prints its listing: stored FILE. Then stores it with a byte behind the end, which
   is refused at that byte. */
#include <stdio.h>
#include "object.h"

static struct object assembled, loaded;
static uint8_t src[LC3_SOURCE + 1], bytes[LC3_STORED_BYTES + 1], text[2 * 1024 * 1024];

int main(int argc, char **argv) {
    uint64_t a[LC3_ANSWER];
    FILE *file = argc == 2 ? fopen(argv[1], "rb") : NULL;
    if (file == NULL) {
        perror("stored FILE");
        return 2;
    }
    size_t size = fread(src, 1, sizeof src, file);
    fclose(file);
    lc3_assemble(src, size, BUFFERS(&assembled), a);
    if (made(&assembled, a) != LC3_ACCEPTED) {
        printf("REFUSED %d\n", (int)a[LC3_NUMBER]);
        return 1;
    }
    lc3_store(LENT(&assembled), bytes, sizeof bytes, a);
    size_t stored = a[LC3_FIRST_COUNT];
    lc3_load(bytes, stored, BUFFERS(&loaded), a);
    made(&loaded, a);
    lc3_list(LENT(&loaded), text, sizeof text, a);
    fwrite(text, 1, a[LC3_FIRST_COUNT], stdout);
    lc3_check(bytes, stored + 1, a);
    printf("%zu bytes; with one more REFUSED %d at %d\n", stored, (int)a[LC3_NUMBER], (int)a[LC3_START]);
    return 0;
}
