/* A program without a C library, as a controller's may be: it has a memset of its own, and the archive asks the linker
   for nothing else. Makes a file, writes and reads it; the status is 0 where the bytes came back. */

#include "sffs1.h"

void *memset(void *to, int value, size_t count) {
    volatile uint8_t *byte = to;
    for (size_t i = 0; i < count; i++) byte[i] = (uint8_t)value;
    return to;
}

static const uint8_t path[] = {'/', 'h', 'e', 'e', 'l'}, written[] = {1, 2, 3, 5, 8, 13, 21, 34};
static uint8_t image[1024], buffer[sizeof written];

int begin(void);

int begin(void) {
    uint64_t ref, count, place;
    if (sffs1_format(image, sizeof image, 2) != SFFS1_DONE) return 1;
    if (sffs1_make_file(image, sizeof image, path, sizeof path, 32, &ref, &place) != SFFS1_DONE) return 2;
    if (sffs1_write(image, sizeof image, path, sizeof path, 0, written, sizeof written, &place) != SFFS1_DONE) return 3;
    if (sffs1_read(image, sizeof image, path, sizeof path, 0, buffer, sizeof buffer, &count, &place) != SFFS1_DONE) return 4;
    if (count != sizeof written) return 5;
    for (size_t i = 0; i < sizeof written; i++) {
        if (buffer[i] != written[i]) return 6;
    }
    return sffs1_remove(image, sizeof image, path, sizeof path, &place);
}

/* Where the system begins, and how a program ends there. */
__asm__(".globl _start\n"
        "_start:\n"
        "    call begin\n"
        "    mov %eax, %edi\n"
        "    mov $60, %eax\n"
        "    syscall\n");
