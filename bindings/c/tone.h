/* The tone engine for C and C++ callers: tables of tone curves, and pictures toned by them.
 *
 * Link with libtone_c.a, which bindings/archive makes of the proved crates:
 *
 *     cc -std=c99 -I bindings/c program.c target/staticlib/libtone_c.a
 *
 * C99 or C++98 and later, on x86-64 Linux; the archive is for no other machine.
 *
 * Every call but tone_version answers one byte: TONE_DONE when it did its work, else the number of
 * the first refusal that applies. The order is that of documents 01 and 02: that in which each call
 * below names its refusals, 20 before 5, and inside a record field by field, not by number: of each
 * list a missing count 2, then 3, missing points 2, 4; a missing kind byte 2, then 5, 6, and only
 * then 2 for a tension or slopes; 7 last. A refused call has changed nothing that it was lent. No
 * call keeps a pointer, allocates memory or holds a state, so calls from several threads do not
 * disturb each other.
 *
 * A point's height is in 256ths of a level, 0 to 65,280: level n is the height 256 n. Records hold
 * levels only, one byte each, and none of their heights is refused.
 *
 * What a caller must see to:
 *  - Floating point is as a program finds it at its start: rounding to nearest, and small numbers
 *    not flushed to zero. Do not link with -ffast-math or -Ofast, nor load a library that was:
 *    their start code turns the flush on for the whole program. Before a call put a rounding mode
 *    of your own back. In another mode tables are not those promised: upward rounding changes a
 *    third of all their bytes.
 *  - There is stack for the call: enum tone_stack says how much.
 *  - An array passes as a pointer and the number of its elements. The pointer must not be null,
 *    even where the number is 0: then any other pointer will do, and nothing is read or written
 *    through it.
 *  - Memory of `float` and of `size_t` is aligned as the type asks, to 4 and to 8 bytes.
 *  - What a call writes must not overlap anything else that the same call is lent.
 *  - A number of elements or a row step may be any value, but memory must be there for what is
 *    lent.
 *  - The archive is the one that this header describes: tone_version() == TONE_VERSION.
 *
 * Memory that a call only writes may be uninitialised: tables that are made, outputs, `written`.
 *
 * What is proved is the archive's source, for every input that keeps to these points. No proof
 * covers the compiler's back end (LLVM), the prover and its libraries, this header and the Rust
 * wrapper, which are written by hand and tested, the operating system, or how much stack there is.
 * Of floats the proof tells the values, and all NaN are one value: that a refused call leaves the
 * bits of a NaN too as they were is tested. */
#ifndef TONE_H
#define TONE_H

#include <stddef.h>
#include <stdint.h>

#ifdef __cplusplus
extern "C" {
#endif

/* The version of this boundary. It grows with every change that a program linked before would
 * notice: other arguments, other or new numbers, another limit or default, another record. */
#define TONE_VERSION 3

/* The archive's version. If it is not TONE_VERSION, this header does not describe the archive. */
uint32_t tone_version(void);

/* The kinds of interpolation.
 *
 * A record may leave its kind out (bit 4 of its map is off). Then bit 7 says which is meant:
 * without it TONE_MONOTONE_CUBIC, with it TONE_MONOTONE_CUBIC_BOX. A kind that is named stands,
 * and bit 7 changes nothing else. */
enum tone_kind {
    TONE_LINEAR = 0,
    TONE_CATMULL_ROM = 1,
    TONE_MONOTONE_CUBIC = 2,     /* of a record without bit 7 that names no kind */
    TONE_MONOTONE_CUBIC_BOX = 3, /* the default; of a record with bit 7 that names no kind */
    TONE_NATURAL_CUBIC = 4,
    TONE_CENTRIPETAL_CATMULL_ROM = 5,
    TONE_CHORDAL_CATMULL_ROM = 6,
    TONE_CARDINAL = 7,      /* carries a tension, in 255ths */
    TONE_CLAMPED_CUBIC = 8, /* carries the slopes at both ends, in 256ths */
    TONE_NOT_A_KNOT_CUBIC = 9
};

/* The formats of pictures. A row of the first plane has 1 byte a pixel (Gray8, YUV), 2 (Ya8),
 * 3 (Rgb24) or 4 (Rgba, Cmyk). */
enum tone_format {
    TONE_GRAY8 = 0,
    TONE_YA8 = 1,
    TONE_RGB24 = 2,
    TONE_RGBA = 3,
    TONE_CMYK = 4,
    TONE_CMYK_INVERTED = 5,
    TONE_YUV420P = 6,
    TONE_YUV422P = 7,
    TONE_YUV444P = 8,
    TONE_YUVJ420P = 9,
    TONE_YUVJ422P = 10,
    TONE_YUVJ444P = 11
};

/* The answers: done, or a refusal. tone_refusal_text has them in words. No call answers 1 any more,
 * which version 1 had for bit 7 of a record's map; 15 to 19 are no answers yet. */
enum tone_answer {
    TONE_DONE = 0,
    TONE_RECORD_TRUNCATED = 2,
    TONE_POINT_COUNT = 3,
    TONE_POINTS_NOT_RISING = 4,
    TONE_UNKNOWN_KIND = 5,
    TONE_FIELD_MISMATCH = 6,
    TONE_TRAILING_BYTES = 7,
    TONE_UNSUPPORTED_FORMAT = 8,
    TONE_PICTURE_TOO_LARGE = 9,
    TONE_MISSING_PLANE = 10,
    TONE_ROW_STEP = 11,
    TONE_PLANE_TOO_SHORT = 12,
    TONE_OUTPUT_TOO_SMALL = 13,
    TONE_TABLE_LENGTH = 14,
    TONE_HEIGHT_RANGE = 20
};

/* Limits and sizes. */
enum tone_size {
    TONE_MOST_POINTS = 64,
    TONE_LARGEST_HEIGHT = 65280,  /* of a point, in 256ths of a level: that of level 255 */
    TONE_LARGEST_SIDE = 4096,     /* of a picture, in pixels */
    TONE_LARGEST_STEP = 32768,    /* from a row to the next, in bytes */
    TONE_TABLE_BYTES = 256,       /* of a byte table */
    TONE_FINE_SAMPLES = 4096,     /* of a fine table to look in */
    TONE_LONGEST_RECORD = 522     /* bytes: no record is longer */
};

/* The height of level n, 0 to 255: heights are in 256ths of a level. */
#define TONE_LEVEL(n) (256 * (n))

/* The three bytes of a point, for an initializer: x, then the height, low byte first. The height is
 * a number of 256ths of a level, 0 to TONE_LARGEST_HEIGHT; no more than its low 16 bits are used.
 *
 *     uint8_t points[] = {TONE_POINT(0, 0), TONE_POINT(64, 38500), TONE_POINT(255, TONE_LEVEL(9))};
 */
#define TONE_POINT(x, height) \
    (uint8_t)(x), (uint8_t)((height) & 0xFF), (uint8_t)(((height) >> 8) & 0xFF)

/* The bytes of stack that a call needs at most, below its caller's frame: measured, not proved.
 * Where the dynamic linker looks up memcpy and memset at their first use, that call takes some KB
 * more; a program linked statically or with -z now is spared it. */
enum tone_stack {
    TONE_STACK_VERSION = 256,
    TONE_STACK_TABLE = 8 * 1024,
    TONE_STACK_FINE_TABLE = 6 * 1024,
    TONE_STACK_LOOKUP = 1024,
    TONE_STACK_PLANE = 1024,
    TONE_STACK_PICTURE = 12 * 1024,
    TONE_STACK_RECORD_TABLE = 8 * 1024,
    TONE_STACK_RECORD_COPY = 10 * 1024
};

/* An answer in words; never null. */
static inline const char *tone_refusal_text(uint8_t answer)
{
    switch (answer) {
    case TONE_DONE:
        return "done";
    case TONE_RECORD_TRUNCATED:
        return "a record ends before its map or inside a field whose bit stands";
    case TONE_POINT_COUNT:
        return "a count of points is above 64, or a record's master count is 0";
    case TONE_POINTS_NOT_RISING:
        return "a record's or set's points don't strictly rise in x";
    case TONE_UNKNOWN_KIND:
        return "the kind byte is above 9";
    case TONE_FIELD_MISMATCH:
        return "bit 5 or bit 6 disagrees with the kind";
    case TONE_TRAILING_BYTES:
        return "bytes follow the last field";
    case TONE_UNSUPPORTED_FORMAT:
        return "the set call is given Ya8, Cmyk or CmykInverted, or a call an unknown format";
    case TONE_PICTURE_TOO_LARGE:
        return "width or height is above 4,096";
    case TONE_MISSING_PLANE:
        return "the set call has no plane, or fewer than three for YUV";
    case TONE_ROW_STEP:
        return "the first plane's row step is below the row bytes or above 32,768";
    case TONE_PLANE_TOO_SHORT:
        return "the first plane has fewer bytes than needed";
    case TONE_OUTPUT_TOO_SMALL:
        return "an output holds less than what would be written";
    case TONE_TABLE_LENGTH:
        return "a float table's length isn't 256 or 4,096 (build) or 4,096 (lookup)";
    case TONE_HEIGHT_RANGE:
        return "a height is above 65,280 or, when today's record is written, no multiple of 256";
    default:
        return "an answer that this version does not know";
    }
}

/* Writes the byte table of the curve through some points to the first 256 bytes of `table`; what
 * is behind them stays.
 *
 * `points` holds points of three bytes in any order: x, then the height in 256ths of a level, low
 * byte first, as TONE_POINT has them. There are points_length / 3 of them, one or two bytes left
 * over are ignored, and of equal x the first counts. `kind` is a tone_kind. `tension` is read for
 * TONE_CARDINAL only, the slopes for TONE_CLAMPED_CUBIC only.
 *
 * Refusals: 3 more than 64 points; 20 a height above 65,280, also of a point that does not count;
 * 5 a kind above 9; 13 a table_length below 256. */
uint8_t tone_table(const uint8_t *points, size_t points_length, uint8_t kind, uint8_t tension,
                   int16_t start_slope, int16_t end_slope, uint8_t *table, size_t table_length);

/* Fills `table`, of 256 or 4,096 floats, with as many samples of that curve from x = 0 to x = 255,
 * clamped to 0..255.
 *
 * Points, kind, tension and slopes as for tone_table.
 *
 * Refusals: 3 more than 64 points; 20 a height above 65,280, also of a point that does not count;
 * 5 a kind above 9; 14 a table_length that is neither 256 nor 4,096. */
uint8_t tone_fine_table(const uint8_t *points, size_t points_length, uint8_t kind, uint8_t tension,
                        int16_t start_slope, int16_t end_slope, float *table, size_t table_length);

/* Replaces each of `values`, clamped to 0..1 with NaN taken as 0, by the height there of a fine
 * table of 4,096 samples, over 255.
 *
 * Refusals: 14 a table_length other than 4,096. */
uint8_t tone_lookup(const float *table, size_t table_length, float *values, size_t values_length);

/* Tones a plane in place by one table of 256 bytes, all twelve formats. Alpha of Ya8 and Rgba and
 * the bytes between the rows stay as they are; Cmyk tones all four inks; of the YUV formats the
 * plane is the luma.
 *
 * `format` is a tone_format. Row y starts at byte y * step. A picture of width or height 0 needs no
 * bytes. All 256 bytes of `table` are read, also by a call that is refused.
 *
 * Refusals: 8 a format above 11; 9 a width or height above 4,096; 11 a step below the row's bytes
 * or above 32,768, also at height 0; 12 a plane_length below (height - 1) * step + the row's
 * bytes. */
uint8_t tone_plane(const uint8_t table[TONE_TABLE_BYTES], uint8_t format, uint32_t width,
                   uint32_t height, uint8_t *plane, size_t plane_length, size_t step);

/* Tones a picture by the set of curves that a record holds, into tight rows at the front of
 * `out_y`: Gray8 and luma by the master, Rgb24 and Rgba by each colour's list or else the master's,
 * alpha copied. For the YUV formats `u` is copied to the front of `out_u` and `v` to that of
 * `out_v`, each whole, whatever its length. What is in an output behind that stays; of the
 * other formats so do out_u and out_v.
 *
 * `planes` says how many planes are given, of which Gray8, Rgb24 and Rgba read the first, YUV the
 * first three. `y` is the first, whatever the format, and row k starts at its byte k * y_step.
 * Where the format has no chroma, u, v, out_u and out_v may have length 0.
 *
 * Refusals: 2 to 7 the record's; 8 Ya8, Cmyk, CmykInverted or a format above 11; 9 a width or
 * height above 4,096; 10 no plane, or fewer than three for YUV; 11 a y_step below the row's bytes
 * or above 32,768, also at height 0; 12 a y_length below (height - 1) * y_step + the row's bytes;
 * 13 an output that holds less than would be written to it. */
uint8_t tone_picture(const uint8_t *record, size_t record_length, uint8_t format, uint32_t width,
                     uint32_t height, size_t planes, const uint8_t *y, size_t y_length,
                     size_t y_step, const uint8_t *u, size_t u_length, const uint8_t *v,
                     size_t v_length, uint8_t *out_y, size_t out_y_length, uint8_t *out_u,
                     size_t out_u_length, uint8_t *out_v, size_t out_v_length);

/* Writes the byte table of a record's master, by the record's kind, to the first 256 bytes of
 * `table`; what is behind them stays.
 *
 * Refusals: 2 to 7 the record's; 13 a table_length below 256. */
uint8_t tone_record_table(const uint8_t *record, size_t record_length, uint8_t *table,
                          size_t table_length);

/* Reads a record and writes the set it holds to the front of `out`, as the present writer has it,
 * and the length to `written`; what is in `out` behind that stays.
 *
 * The writer sets bit 7 always and leaves the kind out when it is TONE_MONOTONE_CUBIC_BOX. So a
 * record without bit 7 that names no kind has a copy that is one byte longer, for the copy names
 * TONE_MONOTONE_CUBIC. No other copy is longer than its record, and TONE_LONGEST_RECORD bytes
 * always suffice.
 *
 * Refusals: 2 to 7 the record's; 13 an out_length below the length that would be written. `written`
 * too is unchanged then. */
uint8_t tone_record_copy(const uint8_t *record, size_t record_length, uint8_t *out,
                         size_t out_length, size_t *written);

#ifdef __cplusplus
}
#endif

#endif
