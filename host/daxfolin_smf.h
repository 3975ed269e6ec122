/* Daxfolin for C: Standard MIDI Files, formats 0 and 1, byte after byte.
 *
 * Each function below is proved (crates/files over crates/smf): for any numbers it comes to an end, does nothing undefined, and answers as
 * said here. It has no state, takes no memory but some stack, and calls nothing. It is in the archive of daxfolin_wave.h,
 * whose daxfolin_files_version answers the version of these calls too.
 *
 *     daxfolin_song song = daxfolin_smf_begin();
 *     for (size_t at = 0; at < length; at++) {
 *         song = daxfolin_smf_byte(song, file[at]);
 *         if (song.number) refused(song.number, at);
 *         if (song.whole == DAXFOLIN_SMF_MESSAGE) played(song.head.tracks, song.track.tick, song.track.status, song.track.first, song.track.value);
 *     }
 *     number = daxfolin_smf_end(song);
 */
#ifndef DAXFOLIN_SMF_H
#define DAXFOLIN_SMF_H

#include <stdint.h>

#ifdef __cplusplus
extern "C" {
#endif

/* Refusals; 0 where there is none. */
enum {
    DAXFOLIN_SMF_NO_MIDI_FILE = 30,      /* it does not begin with MThd */
    DAXFOLIN_SMF_FORMAT_UNKNOWN = 31,    /* not 0 or 1 */
    DAXFOLIN_SMF_DIVISION_WRONG = 32,    /* no ticks a quarter note; frames a second other than 24, 25, 29, 30; no ticks a frame */
    DAXFOLIN_SMF_ENDS_EARLY = 33,        /* header under 6 bytes; the file ends within header or chunk, or before all its tracks */
    DAXFOLIN_SMF_WITHIN_AN_EVENT = 34,   /* a track ends there */
    DAXFOLIN_SMF_QUANTITY_TOO_LONG = 35, /* a delta time or a length of more than four bytes */
    DAXFOLIN_SMF_NO_RUNNING_STATUS = 36, /* a data byte where there is none */
    DAXFOLIN_SMF_STATUS_WITHIN = 37,     /* a status byte within a message */
    DAXFOLIN_SMF_UNKNOWN_STATUS = 38,    /* 241 to 246, 248 to 254 */
    DAXFOLIN_SMF_TEMPO_WRONG = 39,       /* not three bytes, or 0 */
    DAXFOLIN_SMF_TRACK_TOO_LONG = 40     /* it goes on behind tick 281,474,976,710,656 */
};

/* What became whole by the last byte. */
enum {
    DAXFOLIN_SMF_NOTHING = 0,
    DAXFOLIN_SMF_MESSAGE = 1, /* status 128 to 239, first data byte, and in value the second, 0 where there is one */
    DAXFOLIN_SMF_TEMPO = 2,   /* value: microseconds a quarter note */
    DAXFOLIN_SMF_END = 3,     /* of the track */
    DAXFOLIN_SMF_OTHER = 4    /* an exclusive or another meta event */
};

/* What the header says, and how many tracks have begun. */
typedef struct daxfolin_smf_head {
    uint32_t format;
    uint32_t declared;
    uint32_t division; /* ticks a quarter note; from 32768 on 256 less the high byte frames a second, the low byte ticks a frame */
    uint32_t tracks;
} daxfolin_smf_head;

/* The track that is read. Of an event that is whole, tick, status, first and value count. */
typedef struct daxfolin_smf_track {
    uint32_t number, whole, phase, running;
    uint32_t status, first, value, left;
    uint64_t tick;
} daxfolin_smf_track;

/* A file while it is read: the refusal or 0, what became whole, and how far it is. */
typedef struct daxfolin_song {
    uint32_t number, whole;
    uint32_t phase, value, count, left, name;
    daxfolin_smf_head head;
    daxfolin_smf_track track;
} daxfolin_song;

/* A file of which no byte was read. */
daxfolin_song daxfolin_smf_begin(void);

/* It after its next byte. One that is refused stays. */
daxfolin_song daxfolin_smf_byte(daxfolin_song song, uint8_t byte);

/* Where it ends: the refusal, or 0. */
uint32_t daxfolin_smf_end(daxfolin_song song);

#ifdef __cplusplus
}
#endif

#endif
