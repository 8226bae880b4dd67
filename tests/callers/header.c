/* What include/fleecebutton.h says beside the functions' contracts: versions, lengths and parts of the word, the places of a head's faults,
 * null pointers with length 0, inputs that overlap, and the stack. For x86-64, as the archive is. */
#include <stddef.h>
#include <stdint.h>
#include <stdio.h>
#include <string.h>

#include "fleecebutton.h"

static int wrong;

static void expect(int right, const char *what) {
    if (!right) {
        printf("header: %s\n", what);
        wrong++;
    }
}

/* ---- the functions, each on the arrays that stand here */

enum { WIDTH = 3, HEIGHT = 3, ROWS = 2, QP = 28, ARRAYS = 7, ROOM = 1 << 14 };

static struct {
    void *from;
    size_t length;
} lent[ARRAYS];

#define A(k) lent[k].from, lent[k].length

static uint64_t predict(void) { return fb_predict(A(0), 15, 5, A(1)); }
static uint64_t choose(void) { return fb_choose(A(0), 15, A(1), A(2)); }
static uint64_t forward(void) { return fb_forward(A(0), A(1)); }
static uint64_t levels(void) { return fb_levels(QP, A(0), A(1)); }
static uint64_t rebuild(void) { return fb_rebuild(QP, A(0), A(1), A(2)); }
static uint64_t rebuild_with_dc(void) { return fb_rebuild_with_dc(QP, A(0), 640, A(1), A(2)); }
static uint64_t luma_dc_levels(void) { return fb_luma_dc_levels(QP, A(0), A(1)); }
static uint64_t luma_dc_values(void) { return fb_luma_dc_values(QP, A(0), A(1)); }
static uint64_t chroma_dc_levels(void) { return fb_chroma_dc_levels(QP, A(0), A(1)); }
static uint64_t chroma_dc_values(void) { return fb_chroma_dc_values(QP, A(0), A(1)); }
static uint64_t chroma_quantizer(void) { return fb_chroma_quantizer(QP, -2); }
static uint64_t code_block(void) { return fb_code_block(QP, 15, A(0), A(1), A(2), A(3)); }
static uint64_t promised_distance(void) { return fb_promised_distance(QP); }
static uint64_t code_plane(void) { return fb_code_plane(WIDTH, HEIGHT, ROWS, QP, A(0), A(1), A(2)); }
static uint64_t code_picture(void) { return fb_code_picture(WIDTH, HEIGHT, ROWS, QP, 3, -3, A(0), A(1), A(2), A(3), A(4), A(5), A(6)); }
static uint64_t read_head(void) { return fb_read_head(A(0)); }
static uint64_t decode_plane(void) { return fb_decode_plane(A(0), A(1)); }
static uint64_t decode_picture(void) { return fb_decode_picture(A(0), A(1), A(2), A(3)); }
static uint64_t inspect(void) { return fb_inspect(A(0), A(1)); }
static uint64_t quality_sheet(void) { return fb_quality_sheet(WIDTH, HEIGHT, A(0), A(1), A(2), A(3)); }

enum { LUMA = 256 * WIDTH * HEIGHT, CHROMA = 64 * WIDTH * HEIGHT, COUNT = WIDTH * HEIGHT };

/* By each function the arrays that it takes and their lengths. FILE_HERE is the file that was coded last. */
enum { FILE_HERE = -1 };
static const struct function {
    const char *name;
    uint64_t (*call)(void);
    int length[ARRAYS];
} functions[] = {
    {"fb_predict", predict, {13, 16}},
    {"fb_choose", choose, {13, 16, 16}},
    {"fb_forward", forward, {16, 16}},
    {"fb_levels", levels, {16, 16}},
    {"fb_rebuild", rebuild, {16, 16, 16}},
    {"fb_rebuild_with_dc", rebuild_with_dc, {16, 15, 16}},
    {"fb_luma_dc_levels", luma_dc_levels, {16, 16}},
    {"fb_luma_dc_values", luma_dc_values, {16, 16}},
    {"fb_chroma_dc_levels", chroma_dc_levels, {4, 4}},
    {"fb_chroma_dc_values", chroma_dc_values, {4, 4}},
    {"fb_chroma_quantizer", chroma_quantizer, {0}},
    {"fb_code_block", code_block, {13, 16, 16, 16}},
    {"fb_promised_distance", promised_distance, {0}},
    {"fb_code_plane", code_plane, {LUMA, FB_SLICED_FILE_LENGTH(WIDTH, HEIGHT, ROWS), LUMA}},
    {"fb_code_picture", code_picture,
     {LUMA, CHROMA, CHROMA, FB_SLICED_COLOUR_FILE_LENGTH(WIDTH, HEIGHT, ROWS), LUMA, CHROMA, CHROMA}},
    {"fb_read_head", read_head, {FILE_HERE}},
    {"fb_decode_plane", decode_plane, {FILE_HERE, LUMA}},
    {"fb_decode_picture", decode_picture, {FILE_HERE, LUMA, CHROMA, CHROMA}},
    {"fb_inspect", inspect, {FILE_HERE, LUMA}},
    {"fb_quality_sheet", quality_sheet, {LUMA, LUMA, COUNT, 3}},
};
enum { FUNCTIONS = sizeof functions / sizeof functions[0] };

/* ---- what they are lent: zeros, and for pictures one on which each kind of record is coded */

static uint64_t rooms[ARRAYS][ROOM / 8];
static uint8_t luma[LUMA], file[ROOM], decoded[LUMA];
static size_t file_length;

static void draw(void) {
    for (size_t k = 0; k < LUMA; k++) {
        size_t column = k % (16 * WIDTH);
        luma[k] = (uint8_t)(column < 16 ? 90 : column < 32 ? 4 * column : k * k * 7 % 251);
    }
}

static void lend(const struct function *f) {
    for (int k = 0; k < ARRAYS; k++) {
        int length = f->length[k];
        memset(rooms[k], 0, ROOM);
        lent[k].from = length == FILE_HERE ? (void *)file : (void *)rooms[k];
        lent[k].length = length == FILE_HERE ? file_length : (size_t)length;
    }
    if (f->call == code_plane || f->call == code_picture)
        memcpy(rooms[0], luma, LUMA);
    if (f->call == inspect)
        memcpy(rooms[1], decoded, LUMA);
    if (f->call == quality_sheet)
        memset(rooms[2], 1, COUNT);
}

/* The file of this picture, by a function that codes one; 0 where it is refused. */
static int make_file(uint64_t (*coder)(void)) {
    for (int k = 0; k < FUNCTIONS; k++) {
        if (functions[k].call != coder)
            continue;
        lend(&functions[k]);
        uint64_t word = coder();
        int area = coder == code_plane ? 1 : 3;
        file_length = (size_t)fb_value_or_place(word);
        memcpy(file, lent[area].from, file_length);
        memcpy(decoded, lent[area + 1].from, LUMA);
        return fb_number(word) == 0;
    }
    return 0;
}

/* ---- null with length 0 */

static void try_nulls(const struct function *f) {
    for (int k = 0; k < ARRAYS; k++) {
        if (f->length[k] == 0)
            continue;
        lend(f);
        lent[k].from = NULL;
        lent[k].length = 0;
        unsigned wanted = f->length[k] == FILE_HERE ? FB_FORM : FB_LENGTH;
        if (f->call() != wanted) {
            printf("header: %s with no array %d answers another word than %u\n", f->name, k, wanted);
            wrong++;
        }
    }
}

/* ---- the stack: a call on an area of its own, which is painted before */

enum { PAINT = 165, AREA = 1 << 16 };
static unsigned char area[AREA] __attribute__((aligned(16)));

static uint64_t (*called)(void);
static uint64_t answered;

static void call_it(void) { answered = called(); }

static size_t stack_of(const struct function *f) {
    lend(f);
    called = f->call;
    /* what the dynamic linker has to find is found here */
    call_it();
    expect(fb_number(answered) == 0, f->name);
    lend(f);
    memset(area, PAINT, AREA);
    __asm__ volatile("movq %%rsp, %%rbx\n\tmovq %0, %%rsp\n\tcallq *%1\n\tmovq %%rbx, %%rsp"
                     :
                     : "r"(area + AREA), "r"(call_it)
                     : "rbx", "rax", "rcx", "rdx", "rsi", "rdi", "r8", "r9", "r10", "r11", "memory", "cc", "xmm0", "xmm1", "xmm2", "xmm3",
                       "xmm4", "xmm5", "xmm6", "xmm7", "xmm8", "xmm9", "xmm10", "xmm11", "xmm12", "xmm13", "xmm14", "xmm15");
    size_t at = 0;
    while (at < AREA && area[at] == PAINT)
        at++;
    return AREA - at;
}

/* ---- lengths, words, places */

/* Room for the largest picture. A call with QP 255 is refused behind its lengths, so that nothing of it is read or written. */
enum { MOST = FB_MOST * FB_MOST };
static uint8_t planes[2][256 * MOST + 1], chromas[4][64 * MOST + 1], files[(527 + 265) * MOST + 11];

static unsigned sized(size_t width, size_t height, size_t rows, size_t plane, size_t room) {
    return fb_number(fb_code_plane(width, height, rows, 255, planes[0], plane, files, room, planes[1], plane));
}

static unsigned sized_colour(size_t width, size_t height, size_t rows, size_t plane, size_t chroma, size_t room) {
    return fb_number(fb_code_picture(width, height, rows, 255, 0, 0, planes[0], plane, chromas[0], chroma, chromas[1], chroma, files, room,
                                     planes[1], plane, chromas[2], chroma, chromas[3], chroma));
}

static void try_lengths(void) {
    for (size_t width = 1; width <= FB_MOST; width += 21)
        for (size_t height = 1; height <= FB_MOST; height++) {
            size_t plane = FB_PLANE_LENGTH(width, height), chroma = FB_CHROMA_LENGTH(width, height);
            size_t one = FB_FILE_LENGTH(width, height), colour = FB_COLOUR_FILE_LENGTH(width, height);
            expect(sized(width, height, height, plane, one) == FB_QUANTIZER, "FB_FILE_LENGTH");
            expect(sized(width, height, height, plane, one + 1) == FB_LENGTH, "one byte more than FB_FILE_LENGTH");
            expect(sized(width, height, height, plane + 1, one) == FB_LENGTH, "one sample more than FB_PLANE_LENGTH");
            expect(sized_colour(width, height, height, plane, chroma, colour) == FB_QUANTIZER, "FB_COLOUR_FILE_LENGTH");
            expect(sized_colour(width, height, height, plane, chroma + 1, colour) == FB_LENGTH, "one sample more than FB_CHROMA_LENGTH");
            for (size_t rows = 1; rows < height; rows += 13) {
                expect(sized(width, height, rows, plane, FB_SLICED_FILE_LENGTH(width, height, rows)) == FB_QUANTIZER, "FB_SLICED_FILE_LENGTH");
                expect(sized_colour(width, height, rows, plane, chroma, FB_SLICED_COLOUR_FILE_LENGTH(width, height, rows)) == FB_QUANTIZER,
                       "FB_SLICED_COLOUR_FILE_LENGTH");
            }
        }
    expect(sized(FB_MOST + 1, 1, 1, 0, 0) == FB_SIZE && sized(1, FB_MOST + 1, 1, 0, 0) == FB_SIZE, "FB_MOST");
}

static void try_words(void) {
    static const uint8_t neighbours[13], samples[16] = {100, 120, 140, 160};
    uint8_t rebuilt[16];
    int32_t numbers[16];
    uint64_t word = fb_code_block(28, 0, neighbours, 13, samples, 16, numbers, 16, rebuilt, 16);
    expect(fb_number(word) == 0 && fb_mode(word) == 2 && fb_sad(word) == 1616 && numbers[0] == -24, "fb_mode, fb_sad");
    word = fb_read_head(file, file_length);
    expect(fb_number(word) == 0 && fb_width(word) == WIDTH && fb_height(word) == HEIGHT && fb_rows(word) == ROWS, "fb_width, fb_height, fb_rows");
}

static void try_heads(void) {
    static const uint8_t sound[8] = {0x48, 0x44, 0, 1, 0, 1, 0, 0x8E}, sliced[10] = {0x48, 0x53, 0, 4, 0, 3, 0, 2, 0, 0xA4};
    static const uint8_t empty[8] = {0x48, 0x44, 0, 0, 0, 1, 0, 0x8D}, tall[10] = {0x48, 0x53, 0, 4, 0, 3, 0, 4, 0, 0xA6};
    uint8_t changed[10];
    expect(fb_read_head(sound, 1) == FB_FORM && fb_read_head(sound, 7) == FB_FORM && fb_read_head(sliced, 9) == FB_FORM, "a cut head");
    memcpy(changed, sound, 8);
    changed[1] ^= 1;
    expect(fb_read_head(changed, 8) == FB_MARK, "a head's mark");
    memcpy(changed, sound, 8);
    changed[7] ^= 1;
    expect(fb_read_head(changed, 8) == (FB_SUM | 6 << 8), "a head's sum");
    memcpy(changed, sliced, 10);
    changed[9] ^= 1;
    expect(fb_read_head(changed, 10) == (FB_SUM | 8 << 8), "the sum of a head with rows");
    expect(fb_read_head(empty, 8) == FB_SIZE && fb_read_head(tall, 10) == FB_SIZE, "a head's size");
}

static void try_version(void) {
    static const char text[] = FB_VERSION;
    expect(FB_VERSION_MAJOR < 10 && FB_VERSION_MINOR < 10 && FB_VERSION_PATCH < 10, "a version of more digits than this test reads");
    expect(sizeof text == 6 && text[0] == '0' + FB_VERSION_MAJOR && text[1] == '.' && text[2] == '0' + FB_VERSION_MINOR && text[3] == '.' &&
               text[4] == '0' + FB_VERSION_PATCH,
           "FB_VERSION");
}

/* A plane beside itself: two inputs that are one array. */
static void try_overlap(void) {
    static uint8_t map[COUNT];
    double means[3] = {7, 7, 7};
    memset(map, 1, COUNT);
    uint64_t word = fb_quality_sheet(WIDTH, HEIGHT, luma, LUMA, luma, LUMA, map, COUNT, means, 3);
    expect(word == 1 << 8 && means[0] == 0 && means[1] == 0 && means[2] == 0, "a plane beside itself");
}

int main(void) {
    draw();
    try_version();
    try_lengths();
    try_heads();
    try_overlap();
    size_t deepest = 0;
    const char *name = "";
    static uint64_t (*const coders[2])(void) = {code_plane, code_picture};
    for (int coder = 0; coder < 2; coder++) {
        expect(make_file(coders[coder]), "the picture is not coded");
        try_words();
        for (int k = 0; k < FUNCTIONS; k++) {
            try_nulls(&functions[k]);
            size_t stack = stack_of(&functions[k]);
            if (stack > deepest) {
                deepest = stack;
                name = functions[k].name;
            }
        }
    }
    expect(deepest <= FB_STACK, "a function takes more stack than FB_STACK");
    if (wrong == 0)
        printf("header: what the header says of lengths, words, heads, null and overlap holds; the most stack is %u bytes, of %s\n",
               (unsigned)deepest, name);
    return wrong != 0;
}
