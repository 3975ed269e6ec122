/* Tunes a raw recording: mono, 16-bit signed samples, low byte first, 44,100 a second, or 48,000 where that is said.
 *
 *     host/build host/example.c target/example
 *     tools/run target/example sung.raw tuned.raw
 *     tools/run target/example film.raw tuned.raw 48000
 *
 * The whole take is read and tuned before OUT is written, so OUT may be IN, and OUT is as it was where the take is refused. It is written
 * beside OUT, as OUT.part, and renamed when it is on the disk: OUT is there when it is whole. What is no regular file, such as a pipe, is
 * written as it is.
 * Status 0; 1 where a file cannot be read, tuned or written; 2 where the words are wrong. */
#define _GNU_SOURCE
#include "daxfolin.h"
#include "daxfolin_words.h"
#include <errno.h>
#include <fcntl.h>
#include <stdio.h>
#include <stdlib.h>
#include <string.h>
#include <sys/stat.h>
#include <unistd.h>

static const char usage[] = "usage: example IN OUT [44100 | 48000]\n"
                            "Tunes IN, raw samples (mono, 16 bits, low byte first, 44,100 a second unless said), to the nearest notes, and writes OUT.\n";

static int wrong(void) {
    fputs(usage, stderr);
    return 2;
}

static int fail(const char *file, const char *what) {
    fprintf(stderr, "example: %s: %s\n", file, what);
    return 1;
}

static void *no(const char *file, const char *what) {
    fail(file, what);
    return NULL;
}

/* All samples of a file, which the caller frees; or NULL, and why is said. */
static int16_t *read_all(const char *file, size_t *count) {
    FILE *in = fopen(file, "rb");
    if (!in) return no(file, strerror(errno));
    unsigned char *bytes = NULL;
    size_t size = 0, room = 0, n;
    const char *why = NULL;
    do {
        if (size == room) {
            room = room ? 2 * room : 1 << 16;
            unsigned char *more = realloc(bytes, room);
            if (!more) {
                why = "no memory for so many samples";
                break;
            }
            bytes = more;
        }
        n = fread(bytes + size, 1, room - size, in);
        size += n;
    } while (n > 0 && size <= 2 * (size_t)DAXFOLIN_LONGEST_TAKE);
    if (ferror(in)) why = strerror(errno);
    fclose(in);
    if (!why && size == 0) why = "no samples in it";
    if (!why && size % 2) why = "an odd number of bytes: its last sample is cut in two";
    if (!why && size > 2 * (size_t)DAXFOLIN_LONGEST_TAKE) why = "more than 1,000,000,000 samples";
    if (why) {
        free(bytes);
        return no(file, why);
    }
    *count = size / 2;
    return (int16_t *)bytes;
}

/* The sample rate that a word says; or 0, which is none. */
static uint32_t rate_of(const char *word) {
    if (!strcmp(word, "44100")) return DAXFOLIN_CD;
    return strcmp(word, "48000") ? 0 : DAXFOLIN_FILM;
}

/* Writes samples to a file that is open, and closes it; 0, or why not. With `regular` it is on the disk then. */
static int put_all(FILE *to, const int16_t *samples, size_t count, int regular) {
    int why = fwrite(samples, sizeof *samples, count, to) == count && !fflush(to) ? 0 : errno;
    if (!why && regular && fsync(fileno(to))) why = errno;
    if (fclose(to) && !why) why = errno;
    return why;
}

static int write_all(const char *file, const int16_t *samples, size_t count) {
    /* not stat, whose record is another one on every processor, and this is compiled for x86-64 on others too */
    struct statx is;
    int there = !statx(AT_FDCWD, file, 0, STATX_TYPE | STATX_MODE, &is), regular = !there || S_ISREG(is.stx_mode);
    size_t room = strlen(file) + sizeof ".part";
    char *part = malloc(room);
    if (!part) return fail(file, "no memory for its name");
    snprintf(part, room, "%s%s", file, regular ? ".part" : "");
    FILE *to = fopen(part, regular ? "wbx" : "wb");
    int why = to ? put_all(to, samples, count, regular) : errno;
    if (!why && regular && there && chmod(part, is.stx_mode & 07777)) why = errno;
    if (!why && regular && rename(part, file)) why = errno;
    /* one that was there before is somebody else's */
    if (why && to && regular) remove(part);
    free(part);
    return why ? fail(file, strerror(why)) : 0;
}

int main(int argc, char **argv) {
    if (argc == 2 && !strcmp(argv[1], "--help")) return fputs(usage, stdout) < 0 || fflush(stdout) ? 1 : 0;
    if (argc < 3 || argc > 4) return wrong();
    if (daxfolin_version() != DAXFOLIN_VERSION) return fail("the archive", "another version than daxfolin.h");

    static daxfolin_tuner tuner;
    daxfolin_settings settings = DAXFOLIN_DEFAULTS;
    uint32_t started = daxfolin_start(&tuner, argc == 4 ? rate_of(argv[3]) : DAXFOLIN_CD, settings, 0, NULL, 0, NULL, 0);
    if (started == DAXFOLIN_RATE_UNKNOWN) return wrong();
    if (started != DAXFOLIN_TAKEN) return fail(argv[1], daxfolin_words(started));

    size_t count;
    int16_t *take = read_all(argv[1], &count);
    if (!take) return 1;

    unsigned long repeated = 0, dropped = 0;
    daxfolin_stretch part;
    for (size_t k = 0; (part = daxfolin_cut(count, k)).count > 0; k++) {
        int16_t tuned[DAXFOLIN_LONGEST_BLOCK];
        daxfolin_answer answer = daxfolin_plain_block(&tuner, (uint16_t)k, take + part.from, part.count, tuned, part.count);
        if (answer.number != DAXFOLIN_TAKEN) return fail(argv[1], daxfolin_words(answer.number));
        memcpy(take + part.from, tuned, part.count * sizeof *tuned);
        repeated += answer.repeated;
        dropped += answer.dropped;
    }
    if (write_all(argv[2], take, count)) return 1;
    free(take);

    daxfolin_shown meter = daxfolin_meter(&tuner);
    printf("%zu samples, %lu cycles repeated, %lu dropped; ", count, repeated, dropped);
    if (meter.state == DAXFOLIN_PITCHED) printf("period %.3f, wanted %.3f, rate %.5f\n", meter.period, meter.wanted, meter.rate);
    else printf("%s\n", meter.state == DAXFOLIN_LOCKING ? "locking" : "searching");
    if (fflush(stdout)) return fail("standard output", strerror(errno));
    return 0;
}
