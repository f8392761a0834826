/* Tones a picture by a record: tonepicture RECORD PICTURE OUT
 *
 * PICTURE is a binary PGM (P5, toned as Gray8) or PPM (P6, toned as Rgb24) of maxval 255, and OUT
 * becomes the same with toned bytes. Where the engine refuses, the program prints
 * `refused N: words` to standard error and writes no OUT. After any failure its exit code is 1. */
#include <stdio.h>
#include <stdlib.h>

#include "tone.h"

/* The largest picture that the engine takes has 48 MB; a header may have comments. */
#define LARGEST_FILE (64u << 20)

struct bytes {
    uint8_t *data;
    size_t length;
};

struct picture {
    uint8_t format;
    uint32_t width;
    uint32_t height;
    const uint8_t *raster;
    size_t raster_length;
};

static int fail(const char *what, const char *why)
{
    fprintf(stderr, "%s: %s\n", what, why);
    return 0;
}

/* Reads a file whole. Memory for its bytes is never null, also if there are none. */
static int read_file(const char *name, struct bytes *file)
{
    FILE *stream = fopen(name, "rb");
    size_t room = 4096;
    size_t got;

    if (stream == NULL) {
        return fail(name, "cannot be opened");
    }
    file->data = malloc(room);
    file->length = 0;
    while (file->data != NULL
           && (got = fread(file->data + file->length, 1, room - file->length, stream)) > 0) {
        file->length += got;
        if (file->length == room) {
            uint8_t *larger = room < LARGEST_FILE ? realloc(file->data, 2 * room) : NULL;
            if (larger == NULL) {
                free(file->data);
            }
            file->data = larger;
            room *= 2;
        }
    }
    if (file->data != NULL && ferror(stream)) {
        free(file->data);
        file->data = NULL;
        fail(name, "cannot be read");
    } else if (file->data == NULL) {
        fail(name, "is too large");
    }
    fclose(stream);
    return file->data != NULL;
}

static int is_space(uint8_t c)
{
    return c == ' ' || (c >= '\t' && c <= '\r');
}

/* The next number of a header: white space and comments, from # to the end of the line, may be
 * before it. */
static int read_number(const struct bytes *file, size_t *at, uint32_t *number)
{
    size_t i = *at;
    size_t first;

    while (i < file->length && (is_space(file->data[i]) || file->data[i] == '#')) {
        if (file->data[i] == '#') {
            while (i < file->length && file->data[i] != '\n') {
                i++;
            }
        } else {
            i++;
        }
    }
    first = i;
    *number = 0;
    while (i < file->length && file->data[i] >= '0' && file->data[i] <= '9') {
        uint32_t digit = (uint32_t)(file->data[i] - '0');
        if (*number > (UINT32_MAX - digit) / 10) {
            return 0;
        }
        *number = 10 * *number + digit;
        i++;
    }
    *at = i;
    return i > first;
}

/* Finds format, size and raster. Whether the raster has all its bytes, the engine says. */
static int read_header(const char *name, const struct bytes *file, struct picture *picture)
{
    size_t at = 2;
    uint32_t most;

    if (file->length < 2 || file->data[0] != 'P'
        || (file->data[1] != '5' && file->data[1] != '6')) {
        return fail(name, "is neither a binary PGM (P5) nor a binary PPM (P6)");
    }
    picture->format = file->data[1] == '5' ? TONE_GRAY8 : TONE_RGB24;
    if (!read_number(file, &at, &picture->width) || !read_number(file, &at, &picture->height)
        || !read_number(file, &at, &most)) {
        return fail(name, "has no width, height and maxval in its header");
    }
    if (picture->width == 0 || picture->height == 0) {
        return fail(name, "has no pixels");
    }
    if (most != 255) {
        return fail(name, "has a maxval other than 255");
    }
    if (at == file->length || !is_space(file->data[at])) {
        return fail(name, "ends in its header");
    }
    picture->raster = file->data + at + 1;
    picture->raster_length = file->length - at - 1;
    return 1;
}

/* The bytes of a toned raster; 1 for a picture larger than the engine takes, which it refuses
 * before it looks at outputs. */
static size_t toned_length(const struct picture *picture)
{
    if (picture->width > TONE_LARGEST_SIDE || picture->height > TONE_LARGEST_SIDE) {
        return 1;
    }
    return (size_t)picture->width * picture->height * (picture->format == TONE_RGB24 ? 3 : 1);
}

static int tone(const struct bytes *record, const struct picture *picture, struct bytes *toned)
{
    size_t step = (size_t)picture->width * (picture->format == TONE_RGB24 ? 3 : 1);
    uint8_t none = 0; /* what stands for chroma: not null, of length 0 */
    uint8_t answer = tone_picture(record->data, record->length, picture->format, picture->width,
                                  picture->height, 1, picture->raster, picture->raster_length, step,
                                  &none, 0, &none, 0, toned->data, toned->length, &none, 0, &none,
                                  0);

    if (answer != TONE_DONE) {
        fprintf(stderr, "refused %d: %s\n", answer, tone_refusal_text(answer));
    }
    return answer == TONE_DONE;
}

static int write_picture(const char *name, const struct picture *picture, const struct bytes *toned)
{
    FILE *stream = fopen(name, "wb");
    int good;

    if (stream == NULL) {
        return fail(name, "cannot be opened");
    }
    good = fprintf(stream, "P%d\n%lu %lu\n255\n", picture->format == TONE_GRAY8 ? 5 : 6,
                   (unsigned long)picture->width, (unsigned long)picture->height)
           > 0;
    good = good && fwrite(toned->data, 1, toned->length, stream) == toned->length;
    good = fclose(stream) == 0 && good;
    return good ? 1 : fail(name, "cannot be written");
}

int main(int count, char **words)
{
    struct bytes record = {NULL, 0};
    struct bytes file = {NULL, 0};
    struct bytes toned = {NULL, 0};
    struct picture picture;
    int good;

    if (count != 4) {
        fprintf(stderr, "tonepicture RECORD PICTURE OUT: tones a binary PGM or PPM of maxval 255 "
                        "by a record\n");
        return 1;
    }
    good = read_file(words[1], &record) && read_file(words[2], &file)
           && read_header(words[2], &file, &picture);
    if (good) {
        toned.length = toned_length(&picture);
        toned.data = malloc(toned.length);
        good = toned.data != NULL || fail(words[2], "is too large");
    }
    good = good && tone(&record, &picture, &toned) && write_picture(words[3], &picture, &toned);
    free(record.data);
    free(file.data);
    free(toned.data);
    return good ? EXIT_SUCCESS : EXIT_FAILURE;
}
