/* Assembles a file and prints its listing, as `./lc3 list FILE` does: hello FILE. */
#include <stdio.h>
#include "lc3.h"

static uint8_t src[LC3_SOURCE + 1], marks[LC3_MARKS], names[LC3_NAMES], text[2 * 1024 * 1024];
static uint16_t blocks[LC3_BLOCKS], words[LC3_WORDS];
static uint32_t labels[LC3_LABELS], relocations[LC3_RELOCATIONS];

int main(int argc, char **argv) {
    uint64_t a[LC3_ANSWER], *n = a + LC3_FIRST_COUNT;
    FILE *file = argc == 2 ? fopen(argv[1], "rb") : NULL;
    if (file == NULL) {
        fprintf(stderr, "usage: hello FILE\n");
        return 2;
    }
    size_t size = fread(src, 1, sizeof src, file);
    fclose(file);

    lc3_assemble(src, size, blocks, LC3_BLOCKS, words, LC3_WORDS, marks, LC3_MARKS, labels, LC3_LABELS,
                 relocations, LC3_RELOCATIONS, names, LC3_NAMES, a);
    if (a[LC3_NUMBER] == LC3_ACCEPTED) {
        lc3_list(n[0], n[1], n[2], n[3], blocks, LC3_BLOCKS, words, LC3_WORDS, marks, LC3_MARKS, labels, LC3_LABELS,
                 relocations, LC3_RELOCATIONS, names, LC3_NAMES, text, sizeof text, a);
    }
    if (a[LC3_NUMBER] != LC3_ACCEPTED) {
        printf("REFUSED %d\n", (int)a[LC3_NUMBER]);
        return 1;
    }
    fwrite(text, 1, n[0], stdout);
    return 0;
}
