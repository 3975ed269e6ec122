/* Daxfolin for C: takes as RIFF WAVE files, PCM, one channel, 16 bits, 44,100 or 48,000 samples a second.
 *
 * Each function below is proved (crates/files): for any bytes, any numbers and any lengths it comes to an end, does nothing undefined,
 * and answers as said here. It has no state, takes no memory but some stack, and calls nothing. The archive is for x86-64 Linux:
 *
 *     tools/library                                 proves it and writes target/staticlib/libfiles.a
 *     cc -std=c11 -Ihost program.c target/staticlib/libfiles.a
 *
 * or host/build program.c OUT for both, also where the processor is another one (docs/HOST.md).
 *
 * What the proof takes for granted of the caller, as C cannot say it: samples stand at even addresses and bytes anywhere, with as many
 * behind them as the number beside them says; inputs and outputs do not overlap, and during a call nobody else touches them. Of a
 * length of 0 nothing is read or written. */
#ifndef DAXFOLIN_WAVE_H
#define DAXFOLIN_WAVE_H

#include <stddef.h>
#include <stdint.h>

#ifdef __cplusplus
extern "C" {
#endif

/* The answers' numbers, 0 where a call did what it is for. A refusal leaves every output as it was, and what stands beside its number is
 * 0. Of reading and of a seek for a take the least that applies is answered; of writing 16, then 7, then 25; of mending 20, then 29,
 * then 26, then 27. */
enum {
    DAXFOLIN_WAVE_TAKE_FULL = 7,        /* over 1,000,000,000 samples */
    DAXFOLIN_WAVE_RATE_UNKNOWN = 16,    /* neither 44,100 nor 48,000 */
    DAXFOLIN_WAVE_NOT_RIFF_WAVE = 20,   /* under 12 bytes, or they do not begin as RIFF WAVE */
    DAXFOLIN_WAVE_NO_FMT = 21,          /* none before the data or the end */
    DAXFOLIN_WAVE_FMT_WRONG = 22,       /* under 16 bytes of fmt, a field of it wrong, or an odd data size */
    DAXFOLIN_WAVE_NO_DATA = 23,
    DAXFOLIN_WAVE_RUNS_PAST = 24,       /* a chunk past the RIFF chunk, or that past the file */
    DAXFOLIN_WAVE_NO_ROOM = 25,         /* in the output, for all samples or all bytes */
    DAXFOLIN_WAVE_NO_GOOD_FMT = 26,     /* mending: no fmt that reading takes before the data or the end */
    DAXFOLIN_WAVE_NOT_REACHED = 27,     /* mending: no data chunk is reached */
    DAXFOLIN_WAVE_FILE_TOO_LONG = 29    /* mending: 2,147,483,648 bytes or more */
};

#define DAXFOLIN_FILES_VERSION 1u /* of these calls and those of daxfolin_smf.h: what daxfolin_files_version() answers */
#define DAXFOLIN_WAVE_HEADER 44u  /* bytes before the samples, in the files that are written */

/* What was read: the sample rate, and how many samples. */
typedef struct daxfolin_wave_was_read {
    uint32_t number;
    uint32_t hertz;
    size_t count;
} daxfolin_wave_was_read;

/* What was written: how many bytes. */
typedef struct daxfolin_wave_written {
    uint32_t number;
    size_t length;
} daxfolin_wave_written;

/* The take in a file: its sample rate, the place of its first sample's first byte, and how many samples. */
typedef struct daxfolin_wave_take {
    uint32_t number;
    uint32_t hertz;
    uint64_t at;
    uint64_t count;
} daxfolin_wave_take;

/* A size of four bytes, the least first: its place, what it is, and what it becomes, the same where it stays. */
typedef struct daxfolin_wave_size {
    uint64_t at;
    uint32_t old_value;
    uint32_t new_value;
} daxfolin_wave_size;

/* What is mended in a file: the RIFF chunk's size and the data chunk's. */
typedef struct daxfolin_wave_mending {
    uint32_t number;
    daxfolin_wave_size riff;
    daxfolin_wave_size data;
} daxfolin_wave_mending;

/* So many bytes of a file, from a place on. */
typedef struct daxfolin_piece {
    uint64_t at;
    size_t count;
} daxfolin_piece;

/* A chunk's place and the size of its body; `found` is 0 where there is none. */
typedef struct daxfolin_place {
    uint64_t at;
    uint32_t size;
    uint32_t found;
} daxfolin_place;

/* A seek in a file, as numbers alone: any numbers are one. A host has no need to look into it. */
typedef struct daxfolin_seek {
    uint64_t length;       /* the file's, in bytes */
    uint32_t mends;        /* 0: the take is sought; else what is mended */
    uint32_t number;       /* 20 until the file is seen to begin as RIFF WAVE, then 0 */
    uint32_t riff;         /* the RIFF chunk's size */
    uint32_t hertz;        /* the fmt's sample rate; 0 until it was seen, and where it is not taken */
    daxfolin_place fmt;    /* the first chunk of each name */
    daxfolin_place data;
    uint64_t past;         /* 0: no chunk ran past the walk's end */
    daxfolin_piece wanted; /* what daxfolin_seek_wanted answers */
} daxfolin_seek;

#ifdef __cplusplus
#define DAXFOLIN_SAME(a, b) static_assert((a) == (b), "layout")
#else
#define DAXFOLIN_SAME(a, b) _Static_assert((a) == (b), "layout")
#endif
DAXFOLIN_SAME(sizeof(daxfolin_wave_was_read), 16);
DAXFOLIN_SAME(sizeof(daxfolin_wave_written), 16);
DAXFOLIN_SAME(sizeof(daxfolin_wave_take), 24);
DAXFOLIN_SAME(sizeof(daxfolin_wave_size), 16);
DAXFOLIN_SAME(sizeof(daxfolin_wave_mending), 40);
DAXFOLIN_SAME(sizeof(daxfolin_piece), 16);
DAXFOLIN_SAME(sizeof(daxfolin_place), 16);
DAXFOLIN_SAME(offsetof(daxfolin_seek, fmt), 24);
DAXFOLIN_SAME(offsetof(daxfolin_seek, past), 56);
DAXFOLIN_SAME(sizeof(daxfolin_seek), 80);
DAXFOLIN_SAME(sizeof(size_t), 8);
#undef DAXFOLIN_SAME

/* The version of these calls and of those of daxfolin_smf.h: DAXFOLIN_FILES_VERSION. Test it once, before any other call. */
uint32_t daxfolin_files_version(void);

/* ---- whole files in memory */

/* Reads the take of a file: its samples to the front of the output, what lies past them untouched. 0, or 20 to 25. */
daxfolin_wave_was_read daxfolin_wave_read(const uint8_t *bytes, size_t length, int16_t *out, size_t room);

/* Writes a take in the canonical form, a header of 44 bytes and the samples, to the front of the output, what lies past them untouched.
 * 0, or 16, 7, 25. What was written is read back. */
daxfolin_wave_written daxfolin_wave_write(uint32_t hertz, const int16_t *samples, size_t count, uint8_t *out, size_t room);

/* What is mended in a file that a recorder left: two sizes, which the host stores where their values differ. 0, or 20, 29, 26, 27. */
daxfolin_wave_mending daxfolin_wave_mend(const uint8_t *bytes, size_t length);

/* ---- files piece by piece
 *
 *     daxfolin_seek seek = daxfolin_seek_take(length);
 *     for (daxfolin_piece piece; (piece = daxfolin_seek_wanted(seek)).count != 0;) {
 *         uint8_t bytes[16];
 *         .. read piece.count bytes at piece.at ..
 *         seek = daxfolin_seek_give(seek, bytes, piece.count);
 *     }
 *     daxfolin_wave_take take = daxfolin_seek_found(seek);
 *
 * Given each time the file's bytes as it wants them, a seek wants bytes that lie in the file, comes to its end after at most an eighth as
 * many pieces as the file has bytes, and one, and has then found what reading, or mending, finds in the whole file. */

/* A seek in a file of so many bytes: for its take, and for what is mended in it. (No file has 2^63 bytes: such a length is answered 20.) */
daxfolin_seek daxfolin_seek_take(uint64_t length);
daxfolin_seek daxfolin_seek_mending(uint64_t length);

/* The bytes that a seek wants, 12, 8 or 16 of them; none where it is at its end. */
daxfolin_piece daxfolin_seek_wanted(daxfolin_seek seek);

/* The seek after the bytes that it wants; the same where they are not as many. */
daxfolin_seek daxfolin_seek_give(daxfolin_seek seek, const uint8_t *bytes, size_t length);

/* The take that a seek found, or 20 to 24; what is mended, or 20, 29, 26, 27. Before its end: what it would be if the file had nothing
 * more to say. */
daxfolin_wave_take daxfolin_seek_found(daxfolin_seek seek);
daxfolin_wave_mending daxfolin_seek_mended(daxfolin_seek seek);

/* Writes the canonical form's 44 bytes before so many samples to the front of the output. 0, or 16, 7, 25. */
daxfolin_wave_written daxfolin_wave_header(uint32_t hertz, uint64_t samples, uint8_t *out, size_t room);

/* Bytes of a file as samples, and samples as bytes of a file, to the front of the output: as many as both have room for, what lies past
 * them untouched. How many samples were moved. */
size_t daxfolin_wave_samples(const uint8_t *bytes, size_t length, int16_t *out, size_t room);
size_t daxfolin_wave_bytes(const int16_t *samples, size_t count, uint8_t *out, size_t room);

#ifdef __cplusplus
}
#endif

#endif
