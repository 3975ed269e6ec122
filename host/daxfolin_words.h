/* Daxfolin for C: the words for every number that a call answers. Made by tools/numbers from host/numbers.txt; docs/NUMBERS.md also says
 * what to do. */
#ifndef DAXFOLIN_WORDS_H
#define DAXFOLIN_WORDS_H

#include <stdint.h>

/* What a number means, in a few words of English; of one that no call answers, that it is unknown. */
static inline const char *daxfolin_words(uint32_t number) {
    static const char *const words[] = {
        /* 0 */ "taken",
        /* 1 */ "given again: the last block's number, length and samples",
        /* 2 */ "the block is empty",
        /* 3 */ "the block has more than 512 samples, or a night's block length is 0",
        /* 4 */ "an output is shorter than the block, or than a night's recording",
        /* 5 */ "the block's number is neither the next nor the last one taken",
        /* 6 */ "the last block's number, with another length or other samples",
        /* 7 */ "the take has more than 1,000,000,000 samples",
        /* 8 */ "the scale is 1 to 4095",
        /* 9 */ "a number of the record is out of range, or the record is of another version",
        /* 10 */ "the line cannot be read",
        /* 11 */ "eps is 0 to 409",
        /* 12 */ "decay is 0 to 255",
        /* 13 */ "floor is 1 to 1000000",
        /* 14 */ "the channel is 0 to 15",
        /* 15 */ "the mode is 0 (scale) or 1 (keyboard)",
        /* 16 */ "the sample rate is 44,100 or 48,000",
        /* 17 */ "the store has no room for one row",
        /* 18 */ "an interval is -12 to 12 semitones",
        /* 19 */ "there are three voices at most",
        /* 20 */ "this is no RIFF WAVE file",
        /* 21 */ "there is no fmt chunk before the data or the end",
        /* 22 */ "the fmt chunk does not say PCM, one channel, 16 bits, 44,100 or 48,000 a second, or the data size is odd",
        /* 23 */ "there is no data chunk",
        /* 24 */ "a chunk runs past the RIFF chunk, or that past the file",
        /* 25 */ "the output has no room for all samples or bytes",
        /* 26 */ "there is no fmt chunk that says PCM, one channel, 16 bits, 44,100 or 48,000 a second before the data or the end",
        /* 27 */ "no data chunk is reached",
        /* 28 */ "a report has 1,000 takes at most",
        /* 29 */ "the file has 2,147,483,648 bytes or more",
        /* 30 */ "this is no Standard MIDI File",
        /* 31 */ "the format is not 0 or 1; files of format 2 hold several songs",
        /* 32 */ "the header does not say how long a tick is",
        /* 33 */ "the header, a chunk or the file ends too early, or a track is missing",
        /* 34 */ "a track ends within an event",
        /* 35 */ "a delta time or a length has more than four bytes",
        /* 36 */ "a data byte stands where there is no running status",
        /* 37 */ "a status byte stands within a message",
        /* 38 */ "this status byte is in no MIDI file",
        /* 39 */ "a tempo is 0 or does not have three bytes",
        /* 40 */ "a track has more than 281,474,976,710,656 ticks",
    };
    return number < sizeof words / sizeof *words ? words[number] : "an unknown number";
}

#endif
