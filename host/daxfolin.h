/* Daxfolin for C: a proved tuner for one sung voice, mono, 16-bit samples, 44,100 or 48,000 a second, with a list of the notes sung and up
 * to three backing voices.
 *
 * Each function below is proved (crates/host): for any bytes in the tuner, any settings, any block and any lengths it comes to an end,
 * does nothing undefined, and answers as said here. It takes no memory of its own but under 16 KB of stack, has no state outside the tuner,
 * and calls nothing but memcpy and memset. The archive is for x86-64 Linux:
 *
 *     tools/library                                 proves it and writes target/staticlib/libhost.a
 *     cc -std=c11 -Ihost program.c target/staticlib/libhost.a
 *
 * or host/build program.c OUT, also where the processor is another one (docs/HOST.md).
 *
 * What the proof takes for granted of the caller, as C cannot say it:
 * - a tuner is lent at an address that is a multiple of 8, all its 10104 bytes readable and, but for daxfolin_meter, writable.
 *   daxfolin_start and daxfolin_start_default write them all and read none, so there it may be fresh memory;
 * - `samples` and outputs stand at even addresses, with as many samples behind them as the length beside them says, `store` and `intervals`
 *   at addresses that are multiples of 4, and `bytes` anywhere, likewise; of a length of 0 nothing is read or written;
 * - tuner, samples, outputs, store, intervals and bytes do not overlap, and during a call nobody else touches them. Calls on different
 *   tuners may run at once. */
#ifndef DAXFOLIN_H
#define DAXFOLIN_H

#include <stddef.h>
#include <stdint.h>

#ifdef __cplusplus
extern "C" {
#endif

#define DAXFOLIN_VERSION 12u               /* of these calls: what daxfolin_version() answers */
#define DAXFOLIN_LAYOUT 40000u             /* of the tuner: what stands first in it */
#define DAXFOLIN_LONGEST_BLOCK 512u        /* samples of a block */
#define DAXFOLIN_LONGEST_TAKE 1000000000u  /* samples of a take */
#define DAXFOLIN_MOST_ROWS 4096u           /* rows of a list, three numbers each */
#define DAXFOLIN_MOST_VOICES 3u            /* voices beside the lead */
#define DAXFOLIN_CD 44100u                 /* the sample rates, in samples a second */
#define DAXFOLIN_FILM 48000u

/* The answers. After a refusal, any number from 2 on, tuner, outputs and store are as they were; but a start that is refused (8, 11 to 19)
 * leaves the default tuner, and a night that is refused at a block leaves what was taken before that block. Of a start the sample rate is
 * looked at first, then the settings, the store, the intervals. Of settings the first bad one is named, in the order scale, eps, decay,
 * floor, channel, mode. 10 answers lines that cannot be read, and so none of these calls. */
enum {
    DAXFOLIN_TAKEN = 0,                  /* taken: start, change, keyboard bytes, block, night or reset */
    DAXFOLIN_GIVEN_AGAIN = 1,            /* the last block's number, length and samples: the same counts and outputs again, tuner unchanged */
    DAXFOLIN_BLOCK_EMPTY = 2,
    DAXFOLIN_BLOCK_OVER_512 = 3,         /* of a night, a block length of 0 too */
    DAXFOLIN_OUTPUT_SHORT = 4,           /* the lead's, or a chosen voice's: shorter than the block; of a night, than the recording */
    DAXFOLIN_NUMBER_NEITHER = 5,         /* neither the next number nor the last taken */
    DAXFOLIN_OTHER_SAMPLES = 6,          /* the last taken number, other length or samples */
    DAXFOLIN_TAKE_FULL = 7,              /* the take would pass 1,000,000,000 samples */
    DAXFOLIN_SCALE_OUT_OF_RANGE = 8,     /* 0, or over 4095 */
    DAXFOLIN_RECORD_OUT_OF_RANGE = 9,    /* a number of the tuner is out of its range (docs/RANGES.md), its layout's among them */
    DAXFOLIN_EPS_OUT_OF_RANGE = 11,      /* over 409 */
    DAXFOLIN_DECAY_OUT_OF_RANGE = 12,    /* over 255 */
    DAXFOLIN_FLOOR_OUT_OF_RANGE = 13,    /* 0, or over 1,000,000 */
    DAXFOLIN_CHANNEL_OUT_OF_RANGE = 14,  /* over 15 */
    DAXFOLIN_MODE_UNKNOWN = 15,          /* over 1 */
    DAXFOLIN_RATE_UNKNOWN = 16,          /* neither 44,100 nor 48,000 */
    DAXFOLIN_STORE_WITHOUT_ROOM = 17,    /* under three numbers, where a list begins: a start's that keeps one, or a reset's of such a tuner */
    DAXFOLIN_INTERVAL_OUT_OF_RANGE = 18, /* below -12, or over 12 */
    DAXFOLIN_TOO_MANY_VOICES = 19        /* over 3 */
};

/* The modes: whose note is wanted. */
enum { DAXFOLIN_SCALE_MODE = 0, DAXFOLIN_KEYBOARD_MODE = 1 };

typedef struct daxfolin_settings {
    uint32_t scale;   /* 1 to 4095: a mask of 12 bits, bit = note number mod 12 */
    uint32_t eps;     /* 0 to 409, in 1/1024 */
    uint32_t decay;   /* 0 to 255, in 1/256: how much of the old rate is kept at a step; at 0 a note is at its goal at once */
    uint32_t floor;   /* 1 to 1,000,000: a mean square */
    uint32_t mode;    /* 0: the nearest note of the scale is wanted; 1: the key that is held on the keyboard */
    uint32_t channel; /* 0 to 15: the keyboard's */
} daxfolin_settings;

/* What daxfolin_start_default starts with, at 44,100: `daxfolin_settings settings = DAXFOLIN_DEFAULTS;`. */
#define DAXFOLIN_DEFAULTS {4095, 100, 230, 100, 0, 0}

/* What the keyboard's bytes left. */
typedef struct daxfolin_keyboard {
    uint32_t key;    /* the latest note on, until it is released: 0 to 127; 128: none */
    uint16_t status; /* the running status, 128 to 239; 0: none */
    uint16_t half;   /* the first data byte of a message that lacks its second, 0 to 127; 128: none */
} daxfolin_keyboard;

/* The eight lags; looked at while tracking alone. */
typedef struct daxfolin_tracker {
    uint32_t low;  /* the lowest of them */
    uint32_t last; /* the last best */
    uint64_t e[8]; /* their energies and correlations */
    int64_t h[8];
} daxfolin_tracker;

typedef struct daxfolin_tone {
    uint32_t period; /* in 1/256 sample; 0: no period */
    uint32_t note;   /* the wanted note, 0 to 127, chosen at the last tracking step; 128: none */
    uint32_t rate;   /* in 1/65536 */
    uint32_t kept;   /* what rounding cut off the rate, 0 to 255, in 1/256 of its unit: the next smoothing adds it */
} daxfolin_tone;

typedef struct daxfolin_pitch {
    daxfolin_tracker tracker;
    daxfolin_tone tone;
    uint64_t tracking; /* 0 searching, 1 tracking; a tuner with any other number here is answered 9 */
} daxfolin_pitch;

/* The last block, and what its answer counts: given again as it stands here. */
typedef struct daxfolin_last {
    uint16_t number;
    uint16_t length; /* 0: there is none */
    uint16_t repeated;
    uint16_t dropped;
    uint32_t pitched;
    uint32_t strayed;
} daxfolin_last;

/* The list of the notes sung. */
typedef struct daxfolin_listing {
    uint32_t rows;  /* rows so far, up to 4096 */
    uint32_t left;  /* rows left out; both together are no more than the take has samples */
    uint32_t place; /* of the run that began last the place of its row, counted from 0; 4096: it has none */
    uint32_t first; /* and its first sample, up to the take's count */
} daxfolin_listing;

/* A voice beside the lead. */
typedef struct daxfolin_voice {
    uint32_t interval; /* from the wanted note, in semitones, and 12 more: 0 to 24, 12 is none */
    uint32_t behind;   /* how far its read position lies behind the input, in 1/65536 sample */
} daxfolin_voice;

/* The numbers of a tuner, its arrays apart. */
typedef struct daxfolin_numbers {
    uint64_t layout; /* DAXFOLIN_LAYOUT */
    daxfolin_settings settings;
    uint64_t hertz; /* the sample rate, 44,100 or 48,000, which only a start gives; a tuner with any other number here is answered 9 */
    daxfolin_keyboard keyboard;
    uint64_t count; /* samples of the take */
    daxfolin_pitch pitch;
    uint64_t behind; /* how far the lead's read position lies behind the input, in 1/65536 sample */
    daxfolin_last last;
    uint32_t listed; /* 1: a list is kept; 0: none */
    uint32_t chosen; /* voices chosen, 0 to 3: the first of those below; the others are any numbers */
    daxfolin_listing list;
    daxfolin_voice voices[DAXFOLIN_MOST_VOICES];
} daxfolin_numbers;

/* A tuner, as numbers alone: any bytes are one, and one that is not good is answered 9. It may be copied, stored and sent as bytes
 * (little-endian, no padding); one that was stored by a version of these calls with another layout has another number first, and is
 * answered 9. A host has no need to look into it. */
typedef struct daxfolin_tuner {
    daxfolin_numbers numbers;
    uint64_t energies[109]; /* of the lags 2 to 110 at eighth rate */
    int64_t correlations[109];
    int16_t heard[1764]; /* the newest samples, and the newest at eighth rate, oldest first */
    int16_t eighths[224];
    int16_t outs[(1 + DAXFOLIN_MOST_VOICES) * DAXFOLIN_LONGEST_BLOCK]; /* what lead and voices wrote of the last block, 512 places each */
} daxfolin_tuner;

/* The answer to a block. The counts are those of a block that is taken or given again, else 0. */
typedef struct daxfolin_answer {
    uint32_t number;
    uint16_t written;  /* samples, in each output */
    uint16_t repeated; /* cycles of the lead */
    uint16_t dropped;
    uint32_t pitched; /* samples with a period */
    uint32_t strayed; /* the sum over the samples of the rate's distance from 65536 */
    uint32_t rows;    /* of the list that is then kept, and rows left out of it */
    uint32_t left;
} daxfolin_answer;

/* The answer to a night, a recording's blocks in one call. */
typedef struct daxfolin_night_answer {
    uint32_t number;  /* 0, or the number that refused: 9, 3 or 4 before the first block, or a block's own 5, 6 or 7 */
    uint16_t refused; /* of 5, 6 and 7, the number of the block that was refused; else 0 */
    uint64_t taken;   /* blocks taken; what their answers count, added up: */
    uint64_t written;
    uint64_t repeated;
    uint64_t dropped;
    uint64_t pitched;
    uint64_t strayed;
    daxfolin_answer again; /* to a first block that was given again: it is not in the sums; else all 0 */
    uint32_t rows;         /* of the list that is then kept, and rows left out of it */
    uint32_t left;
} daxfolin_night_answer;

/* What the meter shows; a figure that is not of the state is 0. */
enum { DAXFOLIN_SEARCHING = 0, DAXFOLIN_LOCKING = 1, DAXFOLIN_PITCHED = 2, DAXFOLIN_REFUSED = 9 };

typedef struct daxfolin_shown {
    uint32_t state;
    float lag;    /* locking: the found lag, in samples */
    float period; /* pitched: in samples */
    float wanted; /* pitched: the wanted period, in samples; 0 where no key is held, or one outside the table: notes 32 to 100 at 44,100, 33 to 102 at 48,000 */
    float rate;   /* pitched: as a ratio */
} daxfolin_shown;

/* A stretch of a recording: the index of its first sample, and how many it has. */
typedef struct daxfolin_stretch {
    size_t from;
    size_t count;
} daxfolin_stretch;

#ifdef __cplusplus
#define DAXFOLIN_SAME(a, b) static_assert((a) == (b), "layout")
#else
#define DAXFOLIN_SAME(a, b) _Static_assert((a) == (b), "layout")
#endif
#define DAXFOLIN_AT(type, field, place) DAXFOLIN_SAME(offsetof(daxfolin_##type, field), place)
#define DAXFOLIN_SIZE(type, size) DAXFOLIN_SAME(sizeof(daxfolin_##type), size)
/* A tuner's numbers lie one after the other: no padding. */
DAXFOLIN_AT(settings, scale, 0); DAXFOLIN_AT(settings, eps, 4); DAXFOLIN_AT(settings, decay, 8); DAXFOLIN_AT(settings, floor, 12);
DAXFOLIN_AT(settings, mode, 16); DAXFOLIN_AT(settings, channel, 20); DAXFOLIN_SIZE(settings, 24);
DAXFOLIN_AT(keyboard, key, 0); DAXFOLIN_AT(keyboard, status, 4); DAXFOLIN_AT(keyboard, half, 6); DAXFOLIN_SIZE(keyboard, 8);
DAXFOLIN_AT(tracker, low, 0); DAXFOLIN_AT(tracker, last, 4); DAXFOLIN_AT(tracker, e, 8); DAXFOLIN_AT(tracker, h, 72);
DAXFOLIN_SIZE(tracker, 136);
DAXFOLIN_AT(tone, period, 0); DAXFOLIN_AT(tone, note, 4); DAXFOLIN_AT(tone, rate, 8); DAXFOLIN_AT(tone, kept, 12);
DAXFOLIN_SIZE(tone, 16);
DAXFOLIN_AT(pitch, tracker, 0); DAXFOLIN_AT(pitch, tone, 136); DAXFOLIN_AT(pitch, tracking, 152); DAXFOLIN_SIZE(pitch, 160);
DAXFOLIN_AT(last, number, 0); DAXFOLIN_AT(last, length, 2); DAXFOLIN_AT(last, repeated, 4); DAXFOLIN_AT(last, dropped, 6);
DAXFOLIN_AT(last, pitched, 8); DAXFOLIN_AT(last, strayed, 12); DAXFOLIN_SIZE(last, 16);
DAXFOLIN_AT(listing, rows, 0); DAXFOLIN_AT(listing, left, 4); DAXFOLIN_AT(listing, place, 8); DAXFOLIN_AT(listing, first, 12);
DAXFOLIN_SIZE(listing, 16);
DAXFOLIN_AT(voice, interval, 0); DAXFOLIN_AT(voice, behind, 4); DAXFOLIN_SIZE(voice, 8);
DAXFOLIN_AT(numbers, layout, 0); DAXFOLIN_AT(numbers, settings, 8); DAXFOLIN_AT(numbers, hertz, 32); DAXFOLIN_AT(numbers, keyboard, 40);
DAXFOLIN_AT(numbers, count, 48); DAXFOLIN_AT(numbers, pitch, 56); DAXFOLIN_AT(numbers, behind, 216); DAXFOLIN_AT(numbers, last, 224);
DAXFOLIN_AT(numbers, listed, 240); DAXFOLIN_AT(numbers, chosen, 244); DAXFOLIN_AT(numbers, list, 248); DAXFOLIN_AT(numbers, voices, 264);
DAXFOLIN_SIZE(numbers, 288);
DAXFOLIN_AT(tuner, numbers, 0); DAXFOLIN_AT(tuner, energies, 288); DAXFOLIN_AT(tuner, correlations, 1160);
DAXFOLIN_AT(tuner, heard, 2032); DAXFOLIN_AT(tuner, eighths, 5560); DAXFOLIN_AT(tuner, outs, 6008); DAXFOLIN_SIZE(tuner, 10104);
/* The answers have some, which is never looked at. */
DAXFOLIN_AT(answer, number, 0); DAXFOLIN_AT(answer, written, 4); DAXFOLIN_AT(answer, repeated, 6); DAXFOLIN_AT(answer, dropped, 8);
DAXFOLIN_AT(answer, pitched, 12); DAXFOLIN_AT(answer, strayed, 16); DAXFOLIN_AT(answer, rows, 20); DAXFOLIN_AT(answer, left, 24);
DAXFOLIN_SIZE(answer, 28);
DAXFOLIN_AT(night_answer, number, 0); DAXFOLIN_AT(night_answer, refused, 4); DAXFOLIN_AT(night_answer, taken, 8);
DAXFOLIN_AT(night_answer, written, 16); DAXFOLIN_AT(night_answer, repeated, 24); DAXFOLIN_AT(night_answer, dropped, 32);
DAXFOLIN_AT(night_answer, pitched, 40); DAXFOLIN_AT(night_answer, strayed, 48); DAXFOLIN_AT(night_answer, again, 56);
DAXFOLIN_AT(night_answer, rows, 84); DAXFOLIN_AT(night_answer, left, 88); DAXFOLIN_SIZE(night_answer, 96);
DAXFOLIN_AT(shown, state, 0); DAXFOLIN_AT(shown, lag, 4); DAXFOLIN_AT(shown, period, 8); DAXFOLIN_AT(shown, wanted, 12);
DAXFOLIN_AT(shown, rate, 16); DAXFOLIN_SIZE(shown, 20);
DAXFOLIN_AT(stretch, from, 0); DAXFOLIN_AT(stretch, count, 8); DAXFOLIN_SIZE(stretch, 16);
DAXFOLIN_SAME(sizeof(size_t), 8);
#undef DAXFOLIN_SAME
#undef DAXFOLIN_AT
#undef DAXFOLIN_SIZE

/* The version of these calls: DAXFOLIN_VERSION. */
uint32_t daxfolin_version(void);

/* A fresh tuner at this sample rate, DAXFOLIN_CD or DAXFOLIN_FILM, with these settings; with `listed` other than 0 it keeps a list of the
 * notes sung, and with each of the intervals, up to three of -12 to 12 semitones from the wanted note, it has a voice beside the lead. List
 * and voices stay until the next start. The store, which is not written, must have room for a row, three numbers, where a list is kept;
 * else its length may be 0. Answers 0, or a refusal: 16, then 8 or 11 to 15, then 17, 18, 19, and the tuner is the default one, without a
 * list and without voices, at 44,100. */
uint32_t daxfolin_start(daxfolin_tuner *tuner, uint32_t hertz, daxfolin_settings settings, uint32_t listed, const int32_t *intervals,
                        size_t intervals_length, const uint32_t *store, size_t store_length);

/* The default tuner: DAXFOLIN_DEFAULTS at 44,100, without a list and without voices. Answers 0. */
uint32_t daxfolin_start_default(daxfolin_tuner *tuner);

/* New settings, which count from the next sample; another channel than the one in force forgets the key, the running status and any half
 * message. Answers 0, or a refusal: 9, then 8 or 11 to 15. */
uint32_t daxfolin_change(daxfolin_tuner *tuner, daxfolin_settings settings);

/* Bytes of a keyboard, MIDI 1.0, between blocks: any bytes, cut anywhere, and in both modes. The key that they leave counts from the next
 * tracking step. Answers 0, of no bytes too, or 9. */
uint32_t daxfolin_midi(daxfolin_tuner *tuner, const uint8_t *bytes, size_t length);

/* Sample rate, settings, whether a list is kept, and the voices stay, each voice level with the input; everything else is fresh: take,
 * list, key, running status and any half message. The store is as for a start. Answers 0, or a refusal: 9, then 17. */
uint32_t daxfolin_reset(daxfolin_tuner *tuner, const uint32_t *store, size_t store_length);

/* Block `number` of the take (the first is 0, and 65535 is followed by 0): 1 to 512 samples in, as many to `out` and to the output of each
 * voice, in the order in which the start chose them; samples past them are never touched, and the output of a voice that is not chosen is
 * neither tested nor touched, and may be of length 0. Answers 0, or 1, or a refusal: 9, 2, 3, 4, then 5 or 6 (or the repeat, 1), then 7.
 * A voice reads the take by its own read position, at the rate that makes the tracked period its note's, without smoothing and without the
 * lead's limits. Where there is no period or no wanted note, or where the voice's own note is outside the table, it writes 0, and is put
 * level with the input. Its cycles are in no count.
 * Of a block that is taken the list of a tuner that keeps one goes on in the store: rows of three numbers, note (0 to 127), first sample of
 * the take (from 0) and length, one for each longest run of samples with the same wanted note; samples without a period or a wanted note are
 * in no row. The row of a run that goes on has its length so far. There is room for store_length / 3 rows, at most 4096; a run that begins
 * where the store then lent has no place for its row is left out, and counted. The store is written, never read, and past the rows nothing
 * of it is touched: lent each time as it was left, it holds the list of the whole take. */
daxfolin_answer daxfolin_block(daxfolin_tuner *tuner, uint16_t number, const int16_t *samples, size_t samples_length, int16_t *out,
                               size_t out_length, int16_t *first, size_t first_length, int16_t *second, size_t second_length,
                               int16_t *third, size_t third_length, uint32_t *store, size_t store_length);

/* daxfolin_block for a tuner without voices and without a list: nothing else is lent. With voices it is answered 4; with a list its new rows
 * are left out. */
static inline daxfolin_answer daxfolin_plain_block(daxfolin_tuner *tuner, uint16_t number, const int16_t *samples, size_t samples_length,
                                                   int16_t *out, size_t out_length) {
    return daxfolin_block(tuner, number, samples, samples_length, out, out_length, NULL, 0, NULL, 0, NULL, 0, NULL, 0);
}

/* A night's blocks in one call: the recording in blocks of `size` samples, 1 to 512, the last of them maybe shorter, the first of them block
 * `number` of the take. Tuner, outputs, store and sums are those of daxfolin_block called for one block after the other, with what is left
 * of the outputs. A first block that is the last one again is given again, and the rest go on; an empty recording takes no block. Answers
 * 0, or a refusal: 9, then 3 for a size of 0 or over 512, then 4; or at the first block that is refused, its 5, 6 or 7, and there it stops:
 * what was taken stays, and what was not is not touched. */
daxfolin_night_answer daxfolin_night(daxfolin_tuner *tuner, uint16_t number, size_t size, const int16_t *samples, size_t samples_length,
                                     int16_t *out, size_t out_length, int16_t *first, size_t first_length, int16_t *second,
                                     size_t second_length, int16_t *third, size_t third_length, uint32_t *store, size_t store_length);

/* What the meter shows: searching; or locking; or pitched; or refused, of a tuner that the other calls answer 9. */
daxfolin_shown daxfolin_meter(const daxfolin_tuner *tuner);

/* Of a recording of `length` samples, where its k-th stretch of 512 lies, counted from 0: the last may be shorter, and past the end it is
 * empty. The stretch is &recording[from], count. */
daxfolin_stretch daxfolin_cut(size_t length, size_t k);

#ifdef __cplusplus
}
#endif

#endif
