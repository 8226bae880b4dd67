/* The proved library behind a pipe, so that a test on any processor can call it: the library is x86-64 code.
 *
 * A request on standard input is a head (function, and the size of what follows, 32 bits each) and arguments; everything starts
 * at a multiple of 8 bytes, low byte first. A number has 8 bytes, and so has a double. A slice is its number of elements in
 * 8 bytes, then the elements, then bytes up to the next multiple of 8, then GUARD bytes.
 *
 * The answer on standard output is the word in 8 bytes, then the arguments as the call left them, all of them: so the caller
 * sees what became of outputs, of inputs and of what stands between the slices, the guards among it. */
#include <stddef.h>
#include <stdint.h>
#include <string.h>
#include <unistd.h>

#include "fleecebutton.h"

/* Bytes behind each slice, a multiple of 8; they are the caller's, who has them back as the call left them. */
enum { GUARD = 64 };

/* Room for the arguments of the largest picture: three planes of 128x128 macroblocks, the rebuilt ones and the file. */
static uint64_t arguments[(26 << 20) / 8];

static unsigned char read_ahead[1 << 16];
static size_t read_from, read_to;
static unsigned char written[1 << 16];
static size_t written_to;

/* ---- the pipe */

static void flush(void) {
    size_t from = 0;
    while (from < written_to) {
        ssize_t count = write(1, written + from, written_to - from);
        if (count <= 0)
            _exit(3);
        from += (size_t)count;
    }
    written_to = 0;
}

static void put(const void *from, size_t size) {
    const unsigned char *bytes = from;
    while (size > 0) {
        size_t part = sizeof written - written_to;
        if (part > size)
            part = size;
        memcpy(written + written_to, bytes, part);
        written_to += part;
        bytes += part;
        size -= part;
        if (written_to == sizeof written)
            flush();
    }
}

/* Whether so many bytes were still there. */
static int get(void *into, size_t size) {
    unsigned char *bytes = into;
    while (size > 0) {
        if (read_from == read_to) {
            ssize_t count = read(0, read_ahead, sizeof read_ahead);
            if (count <= 0)
                return 0;
            read_from = 0;
            read_to = (size_t)count;
        }
        size_t part = read_to - read_from;
        if (part > size)
            part = size;
        memcpy(bytes, read_ahead + read_from, part);
        read_from += part;
        bytes += part;
        size -= part;
    }
    return 1;
}

/* ---- the arguments of the request at hand, from the first on */

static size_t next;

struct bytes {
    uint8_t *at;
    size_t length;
};

struct numbers {
    int32_t *at;
    size_t length;
};

struct doubles {
    double *at;
    size_t length;
};

static int64_t number(void) { return (int64_t)arguments[next++]; }

static struct bytes bytes(void) {
    size_t length = (size_t)number();
    struct bytes slice = {(uint8_t *)(arguments + next), length};
    next += (length + 7 + GUARD) / 8;
    return slice;
}

static struct numbers numbers(void) {
    size_t length = (size_t)number();
    struct numbers slice = {(int32_t *)(arguments + next), length};
    next += (4 * length + 7 + GUARD) / 8;
    return slice;
}

static struct doubles doubles(void) {
    size_t length = (size_t)number();
    struct doubles slice = {(double *)(arguments + next), length};
    next += length + GUARD / 8;
    return slice;
}

/* ---- a call of each function, with the arguments in their order */

static uint64_t predict(void) {
    struct bytes neighbours = bytes();
    uint8_t flags = (uint8_t)number();
    uint8_t mode = (uint8_t)number();
    struct bytes out = bytes();
    return fb_predict(neighbours.at, neighbours.length, flags, mode, out.at, out.length);
}

static uint64_t choose(void) {
    struct bytes neighbours = bytes();
    uint8_t flags = (uint8_t)number();
    struct bytes samples = bytes();
    struct bytes prediction = bytes();
    return fb_choose(neighbours.at, neighbours.length, flags, samples.at, samples.length, prediction.at, prediction.length);
}

static uint64_t forward(void) {
    struct numbers residual = numbers();
    struct numbers coefficients = numbers();
    return fb_forward(residual.at, residual.length, coefficients.at, coefficients.length);
}

static uint64_t levels(void) {
    uint8_t qp = (uint8_t)number();
    struct numbers residual = numbers();
    struct numbers out = numbers();
    return fb_levels(qp, residual.at, residual.length, out.at, out.length);
}

static uint64_t rebuild(void) {
    uint8_t qp = (uint8_t)number();
    struct bytes prediction = bytes();
    struct numbers given = numbers();
    struct bytes out = bytes();
    return fb_rebuild(qp, prediction.at, prediction.length, given.at, given.length, out.at, out.length);
}

static uint64_t rebuild_with_dc(void) {
    uint8_t qp = (uint8_t)number();
    struct bytes prediction = bytes();
    int32_t dc = (int32_t)number();
    struct numbers ac = numbers();
    struct bytes out = bytes();
    return fb_rebuild_with_dc(qp, prediction.at, prediction.length, dc, ac.at, ac.length, out.at, out.length);
}

static uint64_t luma_dc_levels(void) {
    uint8_t qp = (uint8_t)number();
    struct numbers dc = numbers();
    struct numbers out = numbers();
    return fb_luma_dc_levels(qp, dc.at, dc.length, out.at, out.length);
}

static uint64_t luma_dc_values(void) {
    uint8_t qp = (uint8_t)number();
    struct numbers given = numbers();
    struct numbers dc = numbers();
    return fb_luma_dc_values(qp, given.at, given.length, dc.at, dc.length);
}

static uint64_t chroma_dc_levels(void) {
    uint8_t qp = (uint8_t)number();
    struct numbers dc = numbers();
    struct numbers out = numbers();
    return fb_chroma_dc_levels(qp, dc.at, dc.length, out.at, out.length);
}

static uint64_t chroma_dc_values(void) {
    uint8_t qp = (uint8_t)number();
    struct numbers given = numbers();
    struct numbers dc = numbers();
    return fb_chroma_dc_values(qp, given.at, given.length, dc.at, dc.length);
}

static uint64_t chroma_quantizer(void) {
    uint8_t qp = (uint8_t)number();
    int32_t offset = (int32_t)number();
    return fb_chroma_quantizer(qp, offset);
}

static uint64_t code_block(void) {
    uint8_t qp = (uint8_t)number();
    uint8_t flags = (uint8_t)number();
    struct bytes neighbours = bytes();
    struct bytes samples = bytes();
    struct numbers out = numbers();
    struct bytes rebuilt = bytes();
    return fb_code_block(qp, flags, neighbours.at, neighbours.length, samples.at, samples.length, out.at, out.length,
                         rebuilt.at, rebuilt.length);
}

static uint64_t promised_distance(void) {
    uint8_t qp = (uint8_t)number();
    return fb_promised_distance(qp);
}

static uint64_t code_plane(void) {
    size_t width = (size_t)number();
    size_t height = (size_t)number();
    size_t rows = (size_t)number();
    uint8_t qp = (uint8_t)number();
    struct bytes plane = bytes();
    struct bytes file = bytes();
    struct bytes rebuilt = bytes();
    return fb_code_plane(width, height, rows, qp, plane.at, plane.length, file.at, file.length, rebuilt.at, rebuilt.length);
}

static uint64_t read_head(void) {
    struct bytes file = bytes();
    return fb_read_head(file.at, file.length);
}

static uint64_t decode_plane(void) {
    struct bytes file = bytes();
    struct bytes plane = bytes();
    return fb_decode_plane(file.at, file.length, plane.at, plane.length);
}

static uint64_t code_picture(void) {
    size_t width = (size_t)number();
    size_t height = (size_t)number();
    size_t rows = (size_t)number();
    uint8_t qp = (uint8_t)number();
    int32_t cb_offset = (int32_t)number();
    int32_t cr_offset = (int32_t)number();
    struct bytes luma = bytes();
    struct bytes cb = bytes();
    struct bytes cr = bytes();
    struct bytes file = bytes();
    struct bytes luma_out = bytes();
    struct bytes cb_out = bytes();
    struct bytes cr_out = bytes();
    return fb_code_picture(width, height, rows, qp, cb_offset, cr_offset, luma.at, luma.length, cb.at, cb.length, cr.at, cr.length,
                           file.at, file.length, luma_out.at, luma_out.length, cb_out.at, cb_out.length, cr_out.at, cr_out.length);
}

static uint64_t decode_picture(void) {
    struct bytes file = bytes();
    struct bytes luma = bytes();
    struct bytes cb = bytes();
    struct bytes cr = bytes();
    return fb_decode_picture(file.at, file.length, luma.at, luma.length, cb.at, cb.length, cr.at, cr.length);
}

static uint64_t inspect(void) {
    struct bytes file = bytes();
    struct bytes theirs = bytes();
    return fb_inspect(file.at, file.length, theirs.at, theirs.length);
}

static uint64_t quality_sheet(void) {
    size_t width = (size_t)number();
    size_t height = (size_t)number();
    struct bytes original = bytes();
    struct bytes rebuilt = bytes();
    struct bytes map = bytes();
    struct doubles out = doubles();
    return fb_quality_sheet(width, height, original.at, original.length, rebuilt.at, rebuilt.length, map.at, map.length,
                            out.at, out.length);
}

/* The number of a function in a request is its place here; tests/differential has the same order. */
static uint64_t (*const functions[])(void) = {
    predict,        choose,           forward,          levels,           rebuild,    rebuild_with_dc,   luma_dc_levels,
    luma_dc_values, chroma_dc_levels, chroma_dc_values, chroma_quantizer, code_block, promised_distance, code_plane,
    read_head,      decode_plane,     quality_sheet,    code_picture,     decode_picture, inspect,
};

int main(void) {
    struct {
        uint32_t function;
        uint32_t size;
    } head;
    while (get(&head, sizeof head)) {
        if (head.function >= sizeof functions / sizeof functions[0] || head.size > sizeof arguments)
            return 1;
        if (!get(arguments, head.size))
            return 2;
        next = 0;
        uint64_t word = functions[head.function]();
        put(&word, sizeof word);
        put(arguments, head.size);
    }
    flush();
    return 0;
}
