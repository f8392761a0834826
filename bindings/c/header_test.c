/* Holds the archive to what tone.h says of it: the version, limits and sizes, points and their
 * heights, the kind of a record that names none, how long a copy is, what a refusal leaves alone,
 * whose the modes of floating point are, the stack of each call.
 *
 * It prints the stack that was measured. Each fault is a line on standard error, and then the exit
 * code is 1. It is C99 and C++98. */
#ifndef _GNU_SOURCE
#define _POSIX_C_SOURCE 200809L /* threads, each on memory that is given for its stack */
#endif
#include <fenv.h>
#include <pthread.h>
#include <stdio.h>
#include <stdlib.h>
#include <string.h>
#include <xmmintrin.h>

#include "tone.h"
#include "tone.h" /* twice is as good as once */

static int faults;

static void expect(int good, const char *what)
{
    if (!good) {
        fprintf(stderr, "header: not so: %s\n", what);
        faults++;
    }
}

/* ---- what the calls are lent ---------------------------------------------------------------- */

#define KINDS (TONE_NOT_A_KNOT_CUBIC + 1)
#define FORMATS (TONE_YUVJ444P + 1)
#define SIDE 64
#define POINT_BYTES 3

static uint8_t points[POINT_BYTES * (TONE_MOST_POINTS + 1)];
static uint8_t record[TONE_LONGEST_RECORD];
static uint8_t table[TONE_TABLE_BYTES];
static float fine[TONE_FINE_SAMPLES + 1];
static float values[TONE_FINE_SAMPLES];
static uint8_t plane[4 * SIDE * SIDE];
static uint8_t chroma[2][SIDE * SIDE];
static uint8_t toned[3][4 * SIDE * SIDE];
static uint8_t copied[TONE_LONGEST_RECORD];
static size_t written;

static void put_point(size_t place, size_t x, size_t height)
{
    const uint8_t point[] = {TONE_POINT(x, height)};

    memcpy(points + POINT_BYTES * place, point, sizeof point);
}

/* Points 3 apart whose heights jump and are at no level; in order of x, or from the last to the
 * first. */
static void make_points(size_t count, int backwards)
{
    size_t i;

    for (i = 0; i < count; i++) {
        put_point(backwards ? count - 1 - i : i, 3 * i, TONE_LEVEL(37 * i * i % 255) + 101);
    }
}

/* A record of four lists of 64 points that names its kind. Gives its length. */
static size_t make_record(uint8_t kind)
{
    size_t length = 1;
    size_t i;
    int k;

    record[0] = 0x1F;
    for (k = 0; k < 4; k++) {
        record[length++] = TONE_MOST_POINTS;
        for (i = 0; i < TONE_MOST_POINTS; i++) {
            record[length++] = (uint8_t)(3 * i);
            record[length++] = (uint8_t)(37 * i * i);
        }
    }
    record[length++] = kind;
    if (kind == TONE_CARDINAL) {
        record[0] |= 0x20;
        record[length++] = 100;
    } else if (kind == TONE_CLAMPED_CUBIC) {
        record[0] |= 0x40;
        memset(record + length, 0x81, 4);
        length += 4;
    }
    return length;
}

static uint8_t make_table(size_t count, uint8_t kind, size_t room)
{
    return tone_table(points, POINT_BYTES * count, kind, 100, -300, 300, table, room);
}

static uint8_t make_fine_table(size_t count, uint8_t kind, size_t samples)
{
    return tone_fine_table(points, POINT_BYTES * count, kind, 100, -300, 300, fine, samples);
}

static uint8_t tone_rows(uint8_t format, uint32_t width, uint32_t height, size_t step)
{
    return tone_plane(table, format, width, height, plane, sizeof plane, step);
}

/* ---- numbers of the header ------------------------------------------------------------------ */

/* At each limit a call does its work, and one past it is refused. */
static void check_limits(void)
{
    const uint32_t side = TONE_LARGEST_SIDE;

    make_points(TONE_MOST_POINTS + 1, 0);
    expect(make_table(TONE_MOST_POINTS, TONE_LINEAR, sizeof table) == TONE_DONE, "64 points pass");
    expect(make_table(TONE_MOST_POINTS + 1, TONE_LINEAR, sizeof table) == TONE_POINT_COUNT,
           "TONE_MOST_POINTS is the most");
    expect(make_table(2, KINDS, sizeof table) == TONE_UNKNOWN_KIND, "no kind has the next number");
    expect(make_table(2, TONE_LINEAR, TONE_TABLE_BYTES - 1) == TONE_OUTPUT_TOO_SMALL,
           "a table takes TONE_TABLE_BYTES");
    expect(tone_rows(FORMATS, 1, 1, 1) == TONE_UNSUPPORTED_FORMAT, "no format has the next number");
    expect(tone_rows(TONE_GRAY8, side, 1, side) == TONE_DONE, "4,096 wide passes");
    expect(tone_rows(TONE_GRAY8, side + 1, 0, side + 1) == TONE_PICTURE_TOO_LARGE,
           "TONE_LARGEST_SIDE is the greatest width");
    expect(tone_rows(TONE_GRAY8, 0, side, 0) == TONE_DONE, "4,096 high passes");
    expect(tone_rows(TONE_GRAY8, 0, side + 1, 0) == TONE_PICTURE_TOO_LARGE,
           "TONE_LARGEST_SIDE is the greatest height");
    expect(tone_rows(TONE_GRAY8, 1, 1, TONE_LARGEST_STEP) == TONE_DONE, "a step of 32,768 passes");
    expect(tone_rows(TONE_GRAY8, 1, 1, TONE_LARGEST_STEP + 1) == TONE_ROW_STEP,
           "TONE_LARGEST_STEP is the greatest step");
}

/* Each entry of the table of these points has this value. */
static void expect_flat(const uint8_t *list, size_t length, uint8_t value, const char *what)
{
    size_t v;

    expect(tone_table(list, length, TONE_LINEAR, 0, 0, 0, table, sizeof table) == TONE_DONE, what);
    for (v = 0; v < sizeof table; v++) {
        expect(table[v] == value, what);
    }
}

/* A point is three bytes, and its height 256ths of a level. */
static void check_points(void)
{
    static const uint8_t bytes[] = {TONE_POINT(7, 0x1234)};
    static const uint8_t half[] = {TONE_POINT(0, 128), 9, 255};
    static const uint8_t below[] = {TONE_POINT(0, 127), 9};
    static const uint8_t first[] = {TONE_POINT(10, TONE_LARGEST_HEIGHT), TONE_POINT(10, 0),
                                    TONE_POINT(200, TONE_LEVEL(254) + 128)};

    expect(sizeof bytes == POINT_BYTES && bytes[0] == 7 && bytes[1] == 0x34 && bytes[2] == 0x12,
           "TONE_POINT has x, then the height, low byte first");
    expect(TONE_LEVEL(255) == TONE_LARGEST_HEIGHT, "level 255 is the largest height");
    expect_flat(half, sizeof half, 1, "a half goes up, and two bytes left over are ignored");
    expect_flat(below, sizeof below, 0, "less goes down, and a byte left over is ignored");
    expect_flat(first, sizeof first, 255, "of equal x the first counts");
}

/* A height that is too large is refused after the count and before all else, kept or not. */
static void check_heights(void)
{
    static const uint8_t dropped[] = {TONE_POINT(7, 0), TONE_POINT(7, TONE_LARGEST_HEIGHT + 1)};

    put_point(0, 0, TONE_LARGEST_HEIGHT);
    expect(make_table(1, TONE_LINEAR, sizeof table) == TONE_DONE, "a height of 65,280 passes");
    make_points(TONE_MOST_POINTS + 1, 0);
    put_point(TONE_MOST_POINTS - 1, 1, TONE_LARGEST_HEIGHT + 1);
    expect(make_table(TONE_MOST_POINTS + 1, KINDS, 0) == TONE_POINT_COUNT, "3 comes before 20");
    expect(make_table(TONE_MOST_POINTS, KINDS, 0) == TONE_HEIGHT_RANGE, "20 comes before 5");
    expect(make_fine_table(TONE_MOST_POINTS, KINDS, 0) == TONE_HEIGHT_RANGE,
           "20 comes before 5 for a fine table too");
    expect(make_table(TONE_MOST_POINTS - 1, KINDS, 0) == TONE_UNKNOWN_KIND,
           "a point past the count is not tested, and 5 comes before 13");
    expect(tone_table(dropped, sizeof dropped, TONE_LINEAR, 0, 0, 0, table, sizeof table) ==
               TONE_HEIGHT_RANGE,
           "a point that does not count is tested too");
}

/* A fine table to look in has so many samples, no fewer and no more; so has the longest record. */
static void check_lengths(void)
{
    const size_t longest = make_record(TONE_CLAMPED_CUBIC);

    expect(tone_lookup(fine, TONE_FINE_SAMPLES, values, 1) == TONE_DONE, "4,096 samples pass");
    expect(tone_lookup(fine, TONE_FINE_SAMPLES - 1, values, 1) == TONE_TABLE_LENGTH,
           "fewer than TONE_FINE_SAMPLES do not");
    expect(tone_lookup(fine, TONE_FINE_SAMPLES + 1, values, 1) == TONE_TABLE_LENGTH,
           "more than TONE_FINE_SAMPLES do not");
    expect(longest == TONE_LONGEST_RECORD, "the longest record has TONE_LONGEST_RECORD bytes");
    expect(tone_record_copy(record, longest, copied, longest, &written) == TONE_DONE &&
               written == longest,
           "the longest record is copied");
    expect(tone_record_copy(record, longest, copied, longest - 1, &written) ==
               TONE_OUTPUT_TOO_SMALL,
           "a byte less will not do for it");
}

/* A record of this map, a master and no kind is of the kind that is meant, and of no other. */
static void check_unnamed(uint8_t map, int meant, const char *what)
{
    uint8_t unnamed[] = {0x01, 4, 0, 0, 50, 50, 70, 210, 255, 255};
    static const uint8_t same[] = {TONE_POINT(0, TONE_LEVEL(0)), TONE_POINT(50, TONE_LEVEL(50)),
                                   TONE_POINT(70, TONE_LEVEL(210)),
                                   TONE_POINT(255, TONE_LEVEL(255))};
    uint8_t expected[TONE_TABLE_BYTES];
    int kind;

    unnamed[0] = map;
    expect(tone_record_table(unnamed, sizeof unnamed, expected, sizeof expected) == TONE_DONE,
           "a record without a kind has a table");
    memcpy(points, same, sizeof same);
    for (kind = 0; kind < KINDS; kind++) {
        make_table(4, (uint8_t)kind, sizeof table);
        expect((memcmp(table, expected, sizeof table) == 0) == (kind == meant), what);
    }
}

/* A record without a kind has the one that the header says: kind 2, and with bit 7 kind 3. */
static void check_default_kind(void)
{
    check_unnamed(0x01, TONE_MONOTONE_CUBIC,
                  "a record without bit 7 and kind is of TONE_MONOTONE_CUBIC");
    check_unnamed(0x81, TONE_MONOTONE_CUBIC_BOX,
                  "a record with bit 7 and without a kind is of TONE_MONOTONE_CUBIC_BOX");
}

/* Copies so much of the record; gives how many bytes longer the copy is. */
static int longer_by(size_t length)
{
    expect(tone_record_copy(record, length, copied, sizeof copied, &written) == TONE_DONE,
           "TONE_LONGEST_RECORD bytes suffice");
    expect((copied[0] & 0x80) != 0, "a copy has bit 7");
    return (int)written - (int)length;
}

/* A copy is as long as its record, but for a record without bit 7 that names no kind, and where
 * TONE_MONOTONE_CUBIC_BOX was named. */
static void check_copies(void)
{
    size_t length;
    int kind;

    for (kind = 0; kind < KINDS; kind++) {
        int expected = kind == TONE_MONOTONE_CUBIC_BOX ? -1 : 0;

        length = make_record((uint8_t)kind);
        expect(longer_by(length) == expected, "a copy leaves out TONE_MONOTONE_CUBIC_BOX alone");
        record[0] |= 0x80;
        expect(longer_by(length) == expected, "and so it does where the record has bit 7");
    }
    length = make_record(TONE_LINEAR) - 1;
    record[0] = 0x0F;
    expect(longer_by(length) == 1, "without bit 7 and kind a record has a copy one byte longer");
    record[0] = 0x8F;
    expect(longer_by(length) == 0, "with bit 7 and without a kind it has one as long");
}

/* ---- floating point ------------------------------------------------------------------------- */

/* A refused call leaves floats alone to the bit, a signalling NaN too. */
static void check_refused_floats(void)
{
    static const uint32_t bits[] = {0x7FA00000, 0xFFC12345, 0x80000000, 0x00000001, 0x3F800000};
    float lent[5];

    memcpy(lent, bits, sizeof bits);
    expect(tone_lookup(fine, 256, lent, 5) == TONE_TABLE_LENGTH, "256 samples are refused");
    expect(memcmp(lent, bits, sizeof bits) == 0, "a refused lookup leaves its values");
    expect(tone_fine_table(points, 0, TONE_LINEAR, 0, 0, 0, lent, 5) == TONE_TABLE_LENGTH,
           "a table of five is refused");
    expect(memcmp(lent, bits, sizeof bits) == 0, "a refused table is left");
}

/* The rounding mode is the caller's: entry 7 through (0,0), (12,54) is 31 to nearest, 32 upward. */
static void check_rounding(void)
{
    static const uint8_t line[] = {TONE_POINT(0, 0), TONE_POINT(12, TONE_LEVEL(54))};
    uint8_t entry;

    tone_table(line, sizeof line, TONE_LINEAR, 0, 0, 0, table, sizeof table);
    entry = table[7];
    fesetround(FE_UPWARD);
    tone_table(line, sizeof line, TONE_LINEAR, 0, 0, 0, table, sizeof table);
    fesetround(FE_TONEAREST);
    expect(entry == 31, "rounding to nearest gives 31");
    expect(table[7] == 32, "rounding upward gives 32, for the mode is the caller's");
}

/* So is the flush to zero: 1e-38 in the straight fine table is as small, or nothing. */
static void check_flush(void)
{
    const unsigned int flush = 0x8040; /* of results and of operands */
    const unsigned int control = _mm_getcsr();
    static const uint8_t line[] = {TONE_POINT(0, 0), TONE_POINT(255, TONE_LEVEL(255))};
    float small[2] = {1e-38f, 1e-38f};
    uint32_t bits[2];

    tone_fine_table(line, sizeof line, TONE_LINEAR, 0, 0, 0, fine, TONE_FINE_SAMPLES);
    tone_lookup(fine, TONE_FINE_SAMPLES, small, 1);
    _mm_setcsr(control | flush);
    tone_lookup(fine, TONE_FINE_SAMPLES, small + 1, 1);
    _mm_setcsr(control);
    memcpy(bits, small, sizeof bits);
    expect((control & flush) == 0, "nothing is flushed to zero");
    expect(bits[0] == 0x006CE3EE, "a small value stays");
    expect(bits[1] == 0, "a small value is flushed to zero, for the flush is the caller's");
}

/* ---- stack ---------------------------------------------------------------------------------- */

static void call_version(void)
{
    expect(tone_version() == TONE_VERSION, "header and archive have one version");
}

/* Both tables of lists of several lengths, in and out of order, under every kind. */
static void call_tables(uint8_t (*call)(size_t, uint8_t, size_t), size_t length)
{
    static const size_t counts[] = {0, 1, 2, 3, 4, 33, TONE_MOST_POINTS};
    size_t i;
    int kind;

    for (i = 0; i < 2 * sizeof counts / sizeof counts[0]; i++) {
        make_points(counts[i / 2], (int)(i % 2));
        for (kind = 0; kind < KINDS; kind++) {
            expect(call(counts[i / 2], (uint8_t)kind, length) == TONE_DONE, "a table is made");
        }
    }
}

static void call_table(void)
{
    call_tables(make_table, TONE_TABLE_BYTES);
}

static void call_fine_table(void)
{
    call_tables(make_fine_table, 256);
    call_tables(make_fine_table, TONE_FINE_SAMPLES);
}

static void call_lookup(void)
{
    expect(tone_lookup(fine, TONE_FINE_SAMPLES, values, TONE_FINE_SAMPLES) == TONE_DONE,
           "values are looked up");
}

static void call_plane(void)
{
    int format;

    for (format = 0; format < FORMATS; format++) {
        expect(tone_rows((uint8_t)format, SIDE, SIDE, 4 * SIDE) == TONE_DONE, "a plane is toned");
    }
}

/* The set call takes all but three formats. */
static uint8_t picture_answer(int format)
{
    int refused = format == TONE_YA8 || format == TONE_CMYK || format == TONE_CMYK_INVERTED;

    return refused ? TONE_UNSUPPORTED_FORMAT : TONE_DONE;
}

static void call_picture(void)
{
    int i;

    for (i = 0; i < KINDS * FORMATS; i++) {
        size_t length = make_record((uint8_t)(i / FORMATS));
        uint8_t answer = tone_picture(record, length, (uint8_t)(i % FORMATS), SIDE, SIDE, 3, plane,
                                      sizeof plane, 4 * SIDE, chroma[0], sizeof chroma[0],
                                      chroma[1], sizeof chroma[1], toned[0], sizeof toned[0],
                                      toned[1], sizeof toned[1], toned[2], sizeof toned[2]);
        expect(answer == picture_answer(i % FORMATS), "a picture is toned");
    }
}

static void call_record_table(void)
{
    int kind;

    for (kind = 0; kind < KINDS; kind++) {
        size_t length = make_record((uint8_t)kind);
        expect(tone_record_table(record, length, table, sizeof table) == TONE_DONE,
               "a record's table is made");
    }
}

static void call_record_copy(void)
{
    int kind;

    for (kind = 0; kind < KINDS; kind++) {
        size_t length = make_record((uint8_t)kind);
        expect(tone_record_copy(record, length, copied, sizeof copied, &written) == TONE_DONE,
               "a record is copied");
    }
}

struct work {
    const char *name;
    void (*run)(void);
    size_t most; /* of stack, in bytes */
};

static const struct work works[] = {
    {"tone_version", call_version, TONE_STACK_VERSION},
    {"tone_table", call_table, TONE_STACK_TABLE},
    {"tone_fine_table", call_fine_table, TONE_STACK_FINE_TABLE},
    {"tone_lookup", call_lookup, TONE_STACK_LOOKUP},
    {"tone_plane", call_plane, TONE_STACK_PLANE},
    {"tone_picture", call_picture, TONE_STACK_PICTURE},
    {"tone_record_table", call_record_table, TONE_STACK_RECORD_TABLE},
    {"tone_record_copy", call_record_copy, TONE_STACK_RECORD_COPY},
};

#define STACK_BYTES (64 * 1024)
#define PAINT 0xA5

static const unsigned char *frame; /* of the function that begins the work */

static void *begin(void *work)
{
    frame = (const unsigned char *)__builtin_frame_address(0);
    ((const struct work *)work)->run();
    return NULL;
}

/* Does some work in a thread on a painted stack; gives how far below the frame paint is missing. */
static size_t stack_of(const struct work *work, unsigned char *stack)
{
    pthread_attr_t attributes;
    pthread_t thread;
    size_t left = 0;

    memset(stack, PAINT, STACK_BYTES);
    if (pthread_attr_init(&attributes) != 0 ||
        pthread_attr_setstack(&attributes, stack, STACK_BYTES) != 0 ||
        pthread_create(&thread, &attributes, begin, (void *)work) != 0 ||
        pthread_join(thread, NULL) != 0) {
        fprintf(stderr, "header: no thread could be run\n");
        exit(EXIT_FAILURE);
    }
    pthread_attr_destroy(&attributes);
    while (stack[left] == PAINT) {
        left++;
    }
    return (size_t)(frame - stack) - left;
}

static void check_stack(void)
{
    void *stack;
    size_t i;

    if (posix_memalign(&stack, 4096, STACK_BYTES) != 0) {
        fprintf(stderr, "header: no memory for a stack\n");
        exit(EXIT_FAILURE);
    }
    printf("stack in bytes, measured and stated:");
    for (i = 0; i < sizeof works / sizeof works[0]; i++) {
        size_t needed = stack_of(&works[i], (unsigned char *)stack);
        printf("%s %s %lu of %lu", i == 0 ? "" : ",", works[i].name, (unsigned long)needed,
               (unsigned long)works[i].most);
        if (needed > works[i].most) {
            fprintf(stderr, "header: %s needs more stack than is stated\n", works[i].name);
            faults++;
        }
    }
    printf("\n");
    free(stack);
}

/* The stack comes last: by then the dynamic linker has looked up what the archive needs. */
int main(void)
{
    check_limits();
    check_points();
    check_heights();
    check_lengths();
    check_default_kind();
    check_copies();
    check_refused_floats();
    check_rounding();
    check_flush();
    check_stack();
    return faults == 0 ? EXIT_SUCCESS : EXIT_FAILURE;
}
