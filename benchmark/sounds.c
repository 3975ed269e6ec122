/* The three sounds of the benchmark, made with whole numbers alone, so that they are the same on every machine. */
#include "sounds.h"

static uint32_t seed;

/* A linear congruence; the high half is used. */
static int32_t noise(int32_t most)
{
    seed = seed * 1664525u + 1013904223u;
    return (int32_t)(((int64_t)(seed >> 16) * (2 * most + 1)) >> 16) - most;
}

/* A sine of amplitude 16384, close by Bhaskara's formula; a whole turn is 2^32. */
static int32_t sine(uint32_t turn)
{
    int64_t x = (turn >> 17) & 16383; /* half a turn is 16384 */
    int64_t p = x * (16384 - x);
    int32_t s = (int32_t)(16384 * 16 * p / (5 * 16384LL * 16384 - 4 * p));
    return turn >> 31 ? -s : s;
}

/* The notes sung, in 1/65536 of a turn a sample times 65536: A3 and eleven semitones up. */
static const uint32_t pitches[12] = {21426250, 22700331, 24050172, 25480279, 26995426,
    28600668, 30301364, 32103189, 34012157, 36034637, 38177380, 40447537};
static const uint8_t melody[24] = {0, 2, 4, 5, 7, 9, 11, 7, 5, 4, 2, 0, 4, 7, 4, 0, 9, 5, 7, 11, 2, 4, 0, 7};

/* Singing: notes of 0.4 to 0.9 s, each a little out of tune, joined by short glides; vibrato of 5.5 Hz that sets in after a fifth of a
   second; six harmonics, whose weights wander; a little noise; a breath of a quarter of a second after every sixth note. */
static void sing(int16_t *to, size_t n)
{
    uint32_t phase = 0, wave = 0, wander = 0;
    int64_t pitch = pitches[0];
    int32_t level = 0;
    size_t i = 0;
    seed = 1;
    for (unsigned note = 0; i < n; note++) {
        int64_t want = pitches[melody[note % 24]];
        if (note / 24 % 2) want = want * 3 / 4;
        want += want * noise(20) / 1000;
        size_t length = 17640 + (size_t)(noise(11025) + 11025);
        size_t breath = note % 6 == 5 ? 11025 : 0;
        for (size_t k = 0; k < length + breath && i < n; k++, i++) {
            bool singing = k < length;
            pitch += (want - pitch) / 512;
            int64_t depth = k < 8820 ? 0 : k < 17640 ? (int64_t)(k - 8820) : 8820;
            wave += 535663; /* 5.5 Hz */
            wander += 80000;
            int64_t now = pitch + pitch * depth / 8820 * sine(wave) / 16384 * 8 / 1000;
            phase += (uint32_t)now;
            int32_t loud = singing ? 16384 : 0;
            level += (loud - level) / 256 + (loud > level) - (loud < level);
            int64_t second = 9000 + sine(wander) / 4, third = 6000 + sine(wander * 3) / 8;
            int64_t sum = sine(phase) * 12000LL + sine(phase * 2) * second + sine(phase * 3) * third
                + sine(phase * 4) * 3000LL + sine(phase * 5) * 1800LL + sine(phase * 6) * 1000LL;
            int64_t x = sum / 16384 * level / 16384 / 2;
            to[i] = (int16_t)(x + noise(singing ? 60 : 25));
        }
    }
}

static void hiss(int16_t *to, size_t n)
{
    seed = 2;
    for (size_t i = 0; i < n; i++) to[i] = (int16_t)noise(8000);
}

void sound(char which, int16_t *to, size_t n)
{
    for (size_t i = 0; i < n; i++) to[i] = 0;
    if (which == 'a') sing(to, n);
    if (which == 'b') hiss(to, n);
}
