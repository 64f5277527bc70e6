/*
 * Prints the median time, in nanoseconds, that bson_validate takes for all
 * documents in a file, which stand back to back.
 */
#define _POSIX_C_SOURCE 199309L
#include <bson/bson.h>

#include <stdio.h>
#include <stdlib.h>
#include <time.h>

enum { SAMPLES = 101, CALLS = 20, ROOM = 65536 };

static double now(void)
{
    struct timespec time;
    clock_gettime(CLOCK_MONOTONIC, &time);
    return 1e9 * (double)time.tv_sec + (double)time.tv_nsec;
}

/* Whether all documents are valid. */
static int validate(const uint8_t *bytes, size_t length)
{
    size_t at = 0;
    while (at < length) {
        bson_t document;
        uint32_t size;
        if (length - at < 4)
            return 0;
        size = (uint32_t)bytes[at] | (uint32_t)bytes[at + 1] << 8 |
               (uint32_t)bytes[at + 2] << 16 | (uint32_t)bytes[at + 3] << 24;
        if (size > length - at || !bson_init_static(&document, bytes + at, size))
            return 0;
        if (!bson_validate(&document, BSON_VALIDATE_NONE, NULL))
            return 0;
        at += size;
    }
    return 1;
}

static int ascending(const void *left, const void *right)
{
    double l = *(const double *)left, r = *(const double *)right;
    return (l > r) - (l < r);
}

int main(int count, char **arguments)
{
    static uint8_t bytes[ROOM];
    double samples[SAMPLES];
    size_t length;
    FILE *file;

    if (count != 2 || (file = fopen(arguments[1], "rb")) == NULL) {
        fprintf(stderr, "validate: no file\n");
        return 1;
    }
    length = fread(bytes, 1, sizeof bytes, file);
    fclose(file);
    for (int sample = 0; sample < SAMPLES; sample++) {
        double start = now();
        for (int call = 0; call < CALLS; call++) {
            if (!validate(bytes, length)) {
                fprintf(stderr, "validate: a document is not valid\n");
                return 1;
            }
        }
        samples[sample] = (now() - start) / CALLS;
    }
    qsort(samples, SAMPLES, sizeof samples[0], ascending);
    printf("%.1f\n", samples[SAMPLES / 2]);
    return 0;
}
