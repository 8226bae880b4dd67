#include <stdio.h>
#include <string.h>
#include "fleecebutton.h"

/* The picture's size in macroblocks: 64 x 48 samples. */
enum { WIDTH = 4, HEIGHT = 3 };

int main(void) {
    static uint8_t plane[FB_PLANE_LENGTH(WIDTH, HEIGHT)], rebuilt[sizeof plane], decoded[sizeof plane];
    static uint8_t file[FB_FILE_LENGTH(WIDTH, HEIGHT)];
    for (size_t k = 0; k < sizeof plane; k++)
        plane[k] = (uint8_t)(k % 64 * 3 + k / 64);

    uint64_t word = fb_code_plane(WIDTH, HEIGHT, HEIGHT, 28, plane, sizeof plane, file, sizeof file, rebuilt, sizeof rebuilt);
    if (fb_number(word) != 0)
        return 1;
    size_t used = fb_value_or_place(word);

    uint64_t head = fb_read_head(file, used);
    printf("%u x %u macroblocks in %u bytes\n", fb_width(head), fb_height(head), (unsigned)used);
    word = fb_decode_plane(file, used, decoded, sizeof decoded);
    printf("refusal %u, the planes are %s\n", fb_number(word), memcmp(rebuilt, decoded, sizeof decoded) == 0 ? "equal" : "not equal");

    file[100] ^= 1;
    word = fb_decode_plane(file, used, decoded, sizeof decoded);
    printf("with a byte changed: refusal %u, place %u\n", fb_number(word), (unsigned)fb_value_or_place(word));
    return 0;
}
