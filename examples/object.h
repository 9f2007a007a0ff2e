/* An object with buffers of full size, as the calls take it. */
#ifndef OBJECT_H
#define OBJECT_H

#include "lc3.h"

struct object {
    uint64_t n[4];
    uint16_t blocks[LC3_BLOCKS], words[LC3_WORDS];
    uint8_t marks[LC3_MARKS];
    uint32_t labels[LC3_LABELS], relocations[LC3_RELOCATIONS];
    uint8_t names[LC3_NAMES];
};

/* The buffers of an object as arguments, without and with its counts. */
#define BUFFERS(o)                                                                                                      \
    (o)->blocks, LC3_BLOCKS, (o)->words, LC3_WORDS, (o)->marks, LC3_MARKS, (o)->labels, LC3_LABELS, (o)->relocations,    \
        LC3_RELOCATIONS, (o)->names, LC3_NAMES
#define LENT(o) (o)->n[0], (o)->n[1], (o)->n[2], (o)->n[3], BUFFERS(o)

/* The answer's number; where it is acceptance, the object has the answer's counts. */
static int made(struct object *o, const uint64_t a[LC3_ANSWER]) {
    for (int i = 0; i < 4; i++) {
        o->n[i] = a[LC3_FIRST_COUNT + i];
    }
    return (int)a[LC3_NUMBER];
}

#endif
