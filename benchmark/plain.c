#include "plain.h"

enum { LEAST_LAG = 16, MOST_LAG = 880, LIMIT = 1000000000, LEVEL = 65536, FARTHEST = 65536000, READS = 4096 };

/* The sample rates, and at each the notes of the table with their periods, in 1/256 sample. */
enum { CD = 44100, FILM = 48000 };

typedef struct {
    uint32_t first, last, periods[70];
} table;

static const table at_cd = {32, 100, {217471, 205265, 193745, 182871, 172607, 162919, 153775, 145145, 136998, 129309, 122052, 115201, 108736,
    102633, 96872, 91435, 86303, 81460, 76888, 72572, 68499, 64655, 61026, 57601, 54368, 51316, 48436, 45718, 43152, 40730, 38444, 36286,
    34250, 32327, 30513, 28800, 27184, 25658, 24218, 22859, 21576, 20365, 19222, 18143, 17125, 16164, 15256, 14400, 13592, 12829, 12109,
    11429, 10788, 10182, 9611, 9072, 8562, 8082, 7628, 7200, 6796, 6415, 6055, 5715, 5394, 5091, 4805, 4536, 4281}};
static const table at_film = {33, 102, {223418, 210879, 199043, 187872, 177327, 167375, 157981, 149114, 140745, 132845, 125389, 118352,
    111709, 105439, 99521, 93936, 88664, 83687, 78990, 74557, 70372, 66423, 62695, 59176, 55855, 52720, 49761, 46968, 44332, 41844, 39495,
    37278, 35186, 33211, 31347, 29588, 27927, 26360, 24880, 23484, 22166, 20922, 19748, 18639, 17593, 16606, 15674, 14794, 13964, 13180,
    12440, 11742, 11083, 10461, 9874, 9320, 8797, 8303, 7837, 7397, 6982, 6590, 6220, 5871, 5541, 5230, 4937, 4660, 4398, 4151}};

static bool known(uint32_t hertz) { return hertz == CD || hertz == FILM; }
static const table *table_of(const plain_tuner *t) { return t->hertz == CD ? &at_cd : &at_film; }

/* A ring, its length less one, and how many samples were stored. */
typedef struct {
    const int16_t *ring;
    uint32_t mask, count;
} sound;

/* The sample of k samples ago. */
static int64_t ago(sound x, uint32_t k) { return x.ring[(x.count - 1 - k) & x.mask]; }

static sound full(const plain_tuner *t) { return (sound){t->ring, RING - 1, t->count}; }
static sound eighth(const plain_tuner *t) { return (sound){t->eighths, EIGHTHS - 1, t->count / 8}; }

/* E and H at a lag from the samples themselves. */
static plain_sums direct(sound x, uint32_t lag)
{
    plain_sums s = {0, 0};
    for (uint32_t k = 0; k < lag; k++) {
        int64_t a = ago(x, k), b = ago(x, k + lag);
        s.e += (uint64_t)(a * a + b * b);
        s.h += a * b;
    }
    return s;
}

/* E and H after one sample more. */
static plain_sums next(plain_sums s, sound x, uint32_t lag)
{
    int64_t a = ago(x, 0), b = ago(x, lag), c = ago(x, 2 * lag);
    s.e += (uint64_t)(a * a - c * c);
    s.h += a * b - b * c;
    return s;
}

static uint64_t distance(plain_sums s) { return s.e - 2 * (uint64_t)s.h; }

static bool passes(const plain_tuner *t, plain_sums s, uint32_t lag)
{
    return 1024 * distance(s) <= t->eps * s.e && s.e >= (uint64_t)t->floor * 2 * lag;
}

/* above / below, rounded down; below is above 0. */
static int64_t floor_div(int64_t above, int64_t below) { return above < 0 ? -1 - (-1 - above) / below : above / below; }

/* The test of the record. */

static bool within(uint32_t x, uint32_t from, uint32_t to) { return from <= x && x <= to; }

static bool silent_before(sound x)
{
    for (uint32_t k = x.count; k <= x.mask; k++)
        if (ago(x, k)) return false;
    return true;
}

static bool right(const plain_sums *s, uint32_t n, sound x, uint32_t low)
{
    for (uint32_t i = 0; i < n; i++) {
        plain_sums d = direct(x, low + i);
        if (s[i].e != d.e || s[i].h != d.h) return false;
    }
    return true;
}

static bool good(const plain_tuner *t)
{
    int64_t behind = (int64_t)t->count * LEVEL - t->position;
    if (!known(t->hertz) || !within(t->scale, 1, 4095) || t->eps > 409 || t->decay > 255 || !within(t->floor, 1, 1000000)) return false;
    if (t->count > LIMIT || t->length > LONGEST_BLOCK || t->length > t->count) return false;
    if (behind < 0 || behind > FARTHEST) return false;
    if (!silent_before(full(t)) || !silent_before(eighth(t))) return false;
    if (!right(t->sums, LAGS, eighth(t), 2)) return false;
    if (t->kept > 255) return false;
    if (t->period) {
        if (!t->tracking || !within(t->period, 4096, 225280)) return false;
        if (!within(t->note, table_of(t)->first, table_of(t)->last) || !within(t->rate, 32768, 131072)) return false;
    } else if (t->rate != LEVEL) {
        return false;
    }
    if (!t->tracking) return true;
    if (!within(t->low, LEAST_LAG, MOST_LAG + 1 - TRACKED) || !within(t->last_best, t->low, t->low + TRACKED - 1)) return false;
    return right(t->eight, TRACKED, full(t), t->low);
}

/* Finding a period. */

static bool is_low(const plain_tuner *t, uint32_t lag)
{
    const plain_sums *s = t->sums + lag - 2;
    uint64_t d = distance(s[0]);
    return distance(s[-1]) > d && d <= distance(s[1]) && passes(t, s[0], lag);
}

/* The least low from a lag on; 0: none. */
static uint32_t low_from(const plain_tuner *t, uint32_t lag)
{
    for (; lag <= 109; lag++)
        if (is_low(t, lag)) return lag;
    return 0;
}

/* The lag found; 0: none. */
static uint32_t find(const plain_tuner *t)
{
    uint32_t first = low_from(t, 3);
    if (!first) return 0;
    if (first >= 55) return 8 * first;
    uint32_t second = low_from(t, first + 1);
    if (!second) return 0;
    uint64_t a = distance(direct(full(t), 8 * first)), b = distance(direct(full(t), 8 * second));
    return 8 * (b < a ? second : first);
}

static void track_from(plain_tuner *t, uint32_t low)
{
    t->low = low;
    for (uint32_t i = 0; i < TRACKED; i++) t->eight[i] = direct(full(t), low + i);
}

static void search(plain_tuner *t)
{
    uint32_t lag = find(t);
    if (!lag) return;
    t->tracking = true;
    t->last_best = lag;
    track_from(t, lag - 3);
}

/* Tracking. */

static uint32_t wanted_note(const table *notes, uint32_t scale, uint32_t period)
{
    uint32_t best = 0, least = UINT32_MAX;
    for (uint32_t note = notes->first; note <= notes->last; note++) {
        if (!(scale >> note % 12 & 1)) continue;
        uint32_t p = notes->periods[note - notes->first];
        uint32_t away = p < period ? period - p : p - period;
        if (away <= least) {
            best = note;
            least = away;
        }
    }
    return best;
}

static void track(plain_tuner *t)
{
    uint64_t d[TRACKED];
    uint32_t at = 0;
    for (uint32_t i = 0; i < TRACKED; i++) {
        d[i] = distance(t->eight[i]);
        if (d[i] < d[at]) at = i;
    }
    uint32_t best = t->low + at, last = t->last_best;
    if (!passes(t, t->eight[at], best) || best > last + 3 || last > best + 3) {
        t->tracking = false;
        t->period = t->note = t->kept = 0;
        t->rate = LEVEL;
        return;
    }
    t->last_best = best;
    t->period = 256 * best;
    if (at > 0 && at < TRACKED - 1) {
        int64_t bend = (int64_t)(d[at - 1] + d[at + 1] - 2 * d[at]);
        t->period += (uint32_t)floor_div(256 * (int64_t)(d[at - 1] - d[at + 1]) + bend, 2 * bend);
    }
    const table *notes = table_of(t);
    t->note = wanted_note(notes, t->scale, t->period);
    uint64_t p = notes->periods[t->note - notes->first];
    uint32_t raw = (uint32_t)((2 * (uint64_t)t->period * LEVEL + p) / (2 * p));
    uint32_t total = t->decay * t->rate + (256 - t->decay) * raw + t->kept;
    t->rate = total / 256;
    t->kept = total % 256;
    if (at < 3 && t->low > LEAST_LAG) track_from(t, t->low - 1);
    if (at > 4 && t->low < MOST_LAG + 1 - TRACKED) track_from(t, t->low + 1);
}

/* One sample. */

static int16_t read(const plain_tuner *t)
{
    int64_t behind = (int64_t)t->count * LEVEL - t->position;
    uint32_t whole = (uint32_t)((behind + LEVEL - 1) / LEVEL);
    int64_t u = ((int64_t)whole * LEVEL - behind) / 16;
    sound x = full(t);
    int64_t p = ago(x, whole + 5), a = ago(x, whole + 4), b = ago(x, whole + 3), q = ago(x, whole + 2);
    int64_t slope = b - p, square = 2 * p - 5 * a + 4 * b - q, cube = 3 * a - p - 3 * b + q;
    int64_t one = READS, curve = ((cube * u + square * one) * u + slope * one * one) * u + 2 * a * one * one * one;
    int64_t value = floor_div(curve, 2 * one * one * one);
    return (int16_t)(value < -32768 ? -32768 : value > 32767 ? 32767 : value);
}

static int16_t take(plain_tuner *t, int16_t sample)
{
    t->ring[t->count & (RING - 1)] = sample;
    t->count++;
    bool made = t->count % 8 == 0;
    if (made) {
        int64_t sum = 0;
        for (uint32_t k = 0; k < 8; k++) sum += ago(full(t), k);
        t->eighths[(t->count / 8 - 1) & (EIGHTHS - 1)] = (int16_t)floor_div(sum, 8);
        for (uint32_t i = 0; i < LAGS; i++) t->sums[i] = next(t->sums[i], eighth(t), 2 + i);
    }
    if (t->tracking) {
        for (uint32_t i = 0; i < TRACKED; i++) t->eight[i] = next(t->eight[i], full(t), t->low + i);
        if (t->count % 5 == 0) track(t);
    } else if (made) {
        search(t);
    }
    int64_t input = (int64_t)t->count * LEVEL;
    t->position += t->rate;
    if (t->position > input) {
        t->position -= (int64_t)t->period * 256;
        t->repeated++;
    } else if (input - t->position > FARTHEST) {
        t->position += (int64_t)t->period * 256;
        t->dropped++;
    }
    return read(t);
}

/* The calls. */

uint32_t plain_start(plain_tuner *t, uint32_t hertz)
{
    *t = (plain_tuner){.hertz = known(hertz) ? hertz : CD, .scale = 4095, .eps = 100, .decay = 0, .floor = 100, .rate = LEVEL};
    return known(hertz) ? 0 : 16;
}

static bool same(const plain_tuner *t, const int16_t *samples, size_t n)
{
    for (size_t i = 0; i < n; i++)
        if (samples[i] != ago(full(t), (uint32_t)(n - 1 - i))) return false;
    return true;
}

static uint32_t judge(const plain_tuner *t, uint16_t number, const int16_t *samples, size_t n, size_t room)
{
    if (!good(t)) return 9;
    if (n == 0) return 2;
    if (n > LONGEST_BLOCK) return 3;
    if (room < n) return 4;
    if (t->length && number == t->number) return n == t->length && same(t, samples, n) ? 1 : 6;
    if (number != (t->length ? (uint16_t)(t->number + 1) : 0)) return 5;
    if (t->count + n > LIMIT) return 7;
    return 0;
}

plain_answer plain_block(plain_tuner *t, uint16_t number, const int16_t *samples, size_t n, int16_t *out, size_t room)
{
    uint32_t verdict = judge(t, number, samples, n, room);
    if (verdict > 1) return (plain_answer){verdict, 0, 0, 0};
    if (verdict == 0) {
        t->repeated = t->dropped = 0;
        for (size_t i = 0; i < n; i++) t->out[i] = take(t, samples[i]);
        t->number = number;
        t->length = (uint16_t)n;
    }
    for (size_t i = 0; i < n; i++) out[i] = t->out[i];
    return (plain_answer){verdict, (uint16_t)n, t->repeated, t->dropped};
}
