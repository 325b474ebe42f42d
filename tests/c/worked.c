/* The worked image of docs/FORMAT.md: prints every unit of it, and then those that change when /heel is removed, as
   they stand there. */

#include "sffs1.h"

#include <stdio.h>
#include <string.h>

enum { LENGTH = 256 };

static uint8_t card[LENGTH];

/* A unit: its ref, and its 16 bytes. */
static void print_unit(int ref) {
    printf("    %2d  ", ref);
    for (int i = 0; i < 16; i++) printf("%s%02x", i % 4 == 0 ? " " : "", card[16 * ref + i]);
    putchar('\n');
}

int main(void) {
    static const uint8_t heel[] = {'/', 'h', 'e', 'e', 'l'}, a[] = {'/', 'a'}, last[] = {'l', 'a', 's', 't'};
    uint8_t before[LENGTH];
    uint64_t ref, place;
    memset(card, 0xee, LENGTH);
    if (sffs1_format(card, LENGTH, 2) != SFFS1_DONE) return 1;
    if (sffs1_make_file(card, LENGTH, heel, sizeof heel, 32, &ref, &place) != SFFS1_DONE) return 1;
    if (sffs1_make_directory(card, LENGTH, a, sizeof a, 1, &ref, &place) != SFFS1_DONE) return 1;
    if (sffs1_write(card, LENGTH, heel, sizeof heel, 0, last, sizeof last, &place) != SFFS1_DONE) return 1;
    for (int unit = 0; unit < LENGTH / 16; unit++) print_unit(unit);
    memcpy(before, card, LENGTH);
    if (sffs1_remove(card, LENGTH, heel, sizeof heel, &place) != SFFS1_DONE) return 1;
    for (int unit = 0; unit < LENGTH / 16; unit++)
        if (memcmp(before + 16 * unit, card + 16 * unit, 16) != 0) print_unit(unit);
    return 0;
}
