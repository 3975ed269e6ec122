/* Prints the bytes of the stack below each of the library's calls. A program of its own, so that the harness links no more of the library than it
   measures. It ends with status 1 where a call is not answered as it should be. */
#include "daxfolin.h"
#include "paint.h"
#include "sounds.h"
#include <stdbool.h>

int printf(const char *, ...);

enum { SUNG = 60 * 44100 };
static int16_t in[SUNG], out[512], first[512], second[512], third[512];
static daxfolin_tuner tuner;
static uint32_t rows[3 * DAXFOLIN_MOST_ROWS];
enum { ROWS = sizeof rows / sizeof rows[0] };
static uint16_t number;
static int failures;

/* Calls that do nothing, with the parameters of those that are measured. */
#define NOTHING(result, name, ...) static __attribute__((noinline)) result nothing_##name(__VA_ARGS__)
#define UNSEEN __asm__ volatile("" ::: "memory")
#define TO int16_t *to, size_t room, int16_t *a, size_t a_room, int16_t *b, size_t b_room, int16_t *c, size_t c_room
#define USED "r"(to), "r"(a), "r"(b), "r"(c), "g"(room), "g"(a_room), "g"(b_room), "g"(c_room)
NOTHING(uint32_t, start, daxfolin_tuner *t, uint32_t hertz, daxfolin_settings s, uint32_t listed, const int32_t *zs, size_t voices, const uint32_t *store, size_t n)
{
    __asm__ volatile("" ::"r"(t), "r"(zs), "r"(voices), "r"(store), "g"(n) : "memory");
    return hertz + s.scale + listed;
}
NOTHING(uint32_t, start_default, daxfolin_tuner *t) { UNSEEN; return (uint32_t)(uintptr_t)t; }
NOTHING(uint32_t, change, daxfolin_tuner *t, daxfolin_settings s) { UNSEEN; return (uint32_t)(uintptr_t)t + s.scale; }
NOTHING(uint32_t, midi, daxfolin_tuner *t, const uint8_t *bytes, size_t n) { UNSEEN; return (uint32_t)((uintptr_t)t + (uintptr_t)bytes + n); }
NOTHING(uint32_t, reset, daxfolin_tuner *t, const uint32_t *store, size_t n) { UNSEEN; return (uint32_t)((uintptr_t)t + (uintptr_t)store + n); }
NOTHING(daxfolin_shown, meter, const daxfolin_tuner *t) { UNSEEN; return (daxfolin_shown){(uint32_t)(uintptr_t)t, 0, 0, 0, 0}; }
NOTHING(daxfolin_answer, block, daxfolin_tuner *t, uint16_t n, const int16_t *samples, size_t length, TO, uint32_t *store, size_t numbers)
{
    __asm__ volatile("" ::"r"(t), "r"(samples), "r"(length), USED, "g"(store), "g"(numbers) : "memory");
    return (daxfolin_answer){.number = n};
}
NOTHING(daxfolin_night_answer, night, daxfolin_tuner *t, uint16_t n, size_t size, const int16_t *samples, size_t length, TO, uint32_t *store, size_t numbers)
{
    __asm__ volatile("" ::"r"(t), "r"(size), "r"(samples), "r"(length), USED, "g"(store), "g"(numbers) : "memory");
    return (daxfolin_night_answer){.number = n};
}

/* A call as it is measured, made by the function itself or by the one that does nothing; it gives the number answered. All outputs and the store
   are lent, whatever the tuner has. */
typedef uint32_t way(bool nothing);
#define WAY(name) static __attribute__((noinline)) uint32_t way_##name(bool nothing)
#define LENT out, 512, first, 512, second, 512, third, 512, rows, ROWS
static const daxfolin_settings defaults = DAXFOLIN_DEFAULTS;
static const uint8_t key[3] = {144, 60, 100};
static const int32_t intervals[3] = {4, -3, 7};
static uint32_t listed;
static size_t sent, length = 512, voices;
WAY(start) { return (nothing ? nothing_start : daxfolin_start)(&tuner, DAXFOLIN_CD, defaults, listed, intervals, voices, rows, ROWS); }
WAY(start_default) { return (nothing ? nothing_start_default : daxfolin_start_default)(&tuner); }
WAY(change) { return (nothing ? nothing_change : daxfolin_change)(&tuner, defaults); }
WAY(block) { return (nothing ? nothing_block : daxfolin_block)(&tuner, number, in + sent, length, LENT).number; }
WAY(night) { return (nothing ? nothing_night : daxfolin_night)(&tuner, number, 512, in + sent, length, LENT).number; }
WAY(midi) { return (nothing ? nothing_midi : daxfolin_midi)(&tuner, key, 3); }
WAY(reset) { return (nothing ? nothing_reset : daxfolin_reset)(&tuner, rows, ROWS); }
WAY(meter) { return (nothing ? nothing_meter : daxfolin_meter)(&tuner).state; }

static __attribute__((noinline)) uintptr_t below(way *w, bool nothing, uint32_t *answered)
{
    paint();
    *answered = w(nothing);
    return lowest_changed();
}

/* The depth of a call, below that of one which does nothing; it must be answered as expected. */
static uintptr_t depth(way *w, uint32_t expected)
{
    uint32_t answered;
    uintptr_t top = below(w, true, &answered), low = below(w, false, &answered);
    failures += answered != expected;
    return top - low;
}

/* The greatest over a stretch of singing, the first search and tracking among it. */
static uintptr_t depth_taken(way *w)
{
    uintptr_t most = 0;
    for (number = 0, sent = 0; number < 200; number++, sent += 512) {
        uintptr_t d = depth(w, DAXFOLIN_TAKEN);
        if (d > most) most = d;
    }
    return most;
}

/* A tuner that is out of range by one number. */
static uintptr_t depth_refused(uint64_t *spoiled)
{
    ++*spoiled;
    uintptr_t d = depth(way_block, DAXFOLIN_RECORD_OUT_OF_RANGE);
    --*spoiled;
    return d;
}

/* Every call of a tuner, the first with this list and so many voices. */
static void calls(const char *with)
{
    printf("start%s %lu\n", with, depth(way_start, DAXFOLIN_TAKEN));
    printf("change%s %lu\n", with, depth(way_change, DAXFOLIN_TAKEN));
    printf("night taken%s %lu\n", with, depth_taken(way_night));
    printf("reset%s %lu\n", with, depth(way_reset, DAXFOLIN_TAKEN));
    printf("block taken%s %lu\n", with, depth_taken(way_block));
    number--, sent -= 512;
    printf("block given again%s %lu\n", with, depth(way_block, DAXFOLIN_GIVEN_AGAIN));
    length = 511;
    printf("block refused, 6%s %lu\n", with, depth(way_block, DAXFOLIN_OTHER_SAMPLES));
    number += 9, length = 512;
    printf("block refused, 5%s %lu\n", with, depth(way_block, DAXFOLIN_NUMBER_NEITHER));
    printf("keyboard bytes%s %lu\n", with, depth(way_midi, DAXFOLIN_TAKEN));
    printf("meter%s %lu\n", with, depth(way_meter, DAXFOLIN_PITCHED));
    printf("block refused, 9 by a sum%s %lu\n", with, depth_refused(&tuner.energies[108]));
    printf("block refused, 9 by the layout%s %lu\n", with, depth_refused(&tuner.numbers.layout));
}

int main(void)
{
    sound('a', in, SUNG);
    printf("start with the defaults %lu\n", depth(way_start_default, DAXFOLIN_TAKEN));
    calls("");
    listed = 1, voices = 3;
    calls(", with a list and three voices");
    return failures != 0;
}
