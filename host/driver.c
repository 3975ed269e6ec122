/* Makes the calls that standard input asks for, one after the other, and writes what each left: for a program that compares, and
 * cannot link the library itself. Every buffer stands between guards; a touched guard or sample in is an answer of its own.
 *
 * Asked:    call, number, the lengths of samples, store and outputs, settings, whether a list is kept, two numbers for a cut (`asked`),
 *           then the tuner, the samples, the outputs of lead and voices and the store as they are. Bytes of the keyboard stand in the place
 *           of samples, the first length being theirs, and so do a start's intervals; its sample rate stands in that of a block's number,
 *           and the length of a night's blocks in that of the cut's recording.
 * Answered: a night's answer, any other's, the meter, a stretch, whether something else was touched (`said`), then the tuner, the outputs
 *           and the store. */
#include "daxfolin.h"
#include <stdio.h>
#include <stdlib.h>
#include <string.h>

enum { START, START_DEFAULT, CHANGE, BLOCK, RESET, METER, CUT, VERSION, MIDI, NIGHT };
enum { GUARD = 64, MOST = 4096, MOST_NUMBERS = 3 * 4096 + 64 };
enum { OUTPUTS = 1 + DAXFOLIN_MOST_VOICES }; /* the lead's, and the voices' */

struct asked {
    uint32_t call, number, samples_length, store_length, out_length[OUTPUTS];
    daxfolin_settings settings;
    uint32_t listed, unused;
    uint64_t length, k;
};

struct said {
    daxfolin_night_answer night;
    daxfolin_answer answer;
    daxfolin_shown shown;
    daxfolin_stretch stretch;
    uint64_t touched;
};

/* The tuner and the slices, each with guards before and behind. */
static struct {
    unsigned char before[GUARD];
    daxfolin_tuner tuner;
    unsigned char behind[GUARD];
} lent;
static uint32_t stores[GUARD + MOST_NUMBERS + GUARD];
static _Alignas(int32_t) int16_t in[GUARD + MOST + GUARD];
static int16_t in_was[GUARD + MOST + GUARD], outs[OUTPUTS][GUARD + MOST + GUARD];

static int16_t *const samples = in + GUARD, *const out = outs[0] + GUARD;
static int16_t *const first = outs[1] + GUARD, *const second = outs[2] + GUARD, *const third = outs[3] + GUARD;
static uint32_t *const store = stores + GUARD;

static const unsigned char FILL = 0xA5;

static void get(void *to, size_t size) {
    if (size && fread(to, size, 1, stdin) != 1) exit(2);
}

static void put(const void *from, size_t size) {
    if (size && fwrite(from, size, 1, stdout) != 1) exit(3);
}

static int differs(const void *at, size_t size) {
    const unsigned char *bytes = at;
    for (size_t i = 0; i < size; i++)
        if (bytes[i] != FILL) return 1;
    return 0;
}

/* The meter refuses the tuner with this number past the most that it may be, and not at it. */
static int has_range(const daxfolin_tuner *tuner, uint32_t *number, uint32_t most) {
    uint32_t was = *number;
    *number = most;
    uint32_t at = daxfolin_meter(tuner).state;
    *number = most + 1;
    uint32_t past = daxfolin_meter(tuner).state;
    *number = was;
    return at != DAXFOLIN_REFUSED && past == DAXFOLIN_REFUSED;
}

/* The header's names stand where the library writes: a tuner after a key and its first block. What is 0 there is put out of its range,
 * and the meter refuses it. */
static int misnamed(void) {
    static daxfolin_tuner t;
    daxfolin_numbers *n = &t.numbers;
    daxfolin_settings settings = {1, 2, 3, 4, 1, 6};
    uint8_t bytes[4] = {150, 60, 100, 62};
    int16_t block[3] = {1000, -1000, 500}, room[3];
    if (daxfolin_start(&t, 0, settings, 0, NULL, 0, NULL, 0) != DAXFOLIN_RATE_UNKNOWN || n->hertz != DAXFOLIN_CD) return 1;
    if (daxfolin_start(&t, DAXFOLIN_FILM, settings, 0, NULL, 0, NULL, 0) || daxfolin_midi(&t, bytes, 4)) return 1;
    if (daxfolin_plain_block(&t, 0, block, 3, room, 3).number) return 1;
    if (n->layout != DAXFOLIN_LAYOUT || memcmp(&n->settings, &settings, sizeof settings) || n->hertz != DAXFOLIN_FILM ||
        n->keyboard.key != 60 || n->keyboard.status != 150 || n->keyboard.half != 62 || n->count != 3 || n->listed || n->chosen ||
        memcmp(t.heard + 1761, block, sizeof block) || n->pitch.tone.note != 128 || n->pitch.tone.rate != 65536 || n->pitch.tone.kept ||
        n->pitch.tracking || n->behind || n->last.length != 3 || memcmp(t.outs, room, sizeof room))
        return 1;
    if (!has_range(&t, &n->pitch.tone.kept, 255) || !has_range(&t, &n->listed, 1)) return 1;
    n->pitch.tracking = (uint64_t)1 << 32;
    return daxfolin_meter(&t).state != DAXFOLIN_REFUSED;
}

/* So do those of list and voices, after a tone: they are what was answered and written, and each of their numbers has its range. */
static int voices_misnamed(void) {
    enum { TONE = 2400, BLOCK_LENGTH = 480, LAST = TONE - BLOCK_LENGTH };
    static daxfolin_tuner plain, t;
    static int16_t tone[TONE], room[OUTPUTS][TONE];
    daxfolin_settings settings = {4095, 409, 3, 4, 0, 6};
    int32_t intervals[] = {7, -12, 3};
    uint32_t rows[30];
    daxfolin_numbers *n = &t.numbers;
    for (int i = 0; i < TONE; i++) tone[i] = i / 48 % 2 ? 4500 : -4500;
    if (daxfolin_start(&plain, DAXFOLIN_FILM, settings, 0, NULL, 0, NULL, 0)) return 1;
    daxfolin_night_answer p = daxfolin_night(&plain, 0, BLOCK_LENGTH, tone, TONE, room[0], TONE, NULL, 0, NULL, 0, NULL, 0, NULL, 0);
    if (daxfolin_start(&t, DAXFOLIN_FILM, settings, 1, intervals, 3, rows, 30)) return 1;
    daxfolin_night_answer a = daxfolin_night(&t, 0, BLOCK_LENGTH, tone, TONE, room[0], TONE, room[1], TONE, room[2], TONE, room[3], TONE, rows, 30);
    if (p.number || a.number || !a.rows || a.rows > 10 || !a.pitched || p.pitched != a.pitched || p.strayed != a.strayed) return 1;
    /* the lead is the plain tuner's */
    const size_t lead = offsetof(daxfolin_numbers, listed), heard = offsetof(daxfolin_tuner, energies);
    if (memcmp(n, &plain.numbers, lead) || memcmp((char *)&t + heard, (char *)&plain + heard, offsetof(daxfolin_tuner, outs) - heard)) return 1;
    if (memcmp(t.outs, plain.outs, 2 * BLOCK_LENGTH) || n->last.pitched != BLOCK_LENGTH || !n->last.strayed) return 1;
    if (n->list.rows != a.rows || n->list.left != a.left || n->list.place != a.rows - 1 || n->list.first != rows[3 * n->list.place + 1]) return 1;
    if (!has_range(&t, &n->list.rows, TONE - a.left) || !has_range(&t, &n->list.left, TONE - a.rows) ||
        !has_range(&t, &n->list.place, a.rows - 1) || !has_range(&t, &n->list.first, TONE))
        return 1;
    for (int i = 0; i < 3; i++) {
        daxfolin_voice *voice = &n->voices[i];
        const int16_t *kept = t.outs + (1 + i) * DAXFOLIN_LONGEST_BLOCK;
        if (voice->interval != (uint32_t)(12 + intervals[i]) || !kept[0] || memcmp(kept, room[1 + i] + LAST, 2 * BLOCK_LENGTH)) return 1;
        if (!has_range(&t, &voice->interval, 24) || !has_range(&t, &voice->behind, 65536000)) return 1;
    }
    return n->listed != 1 || n->chosen != 3 || !has_range(&t, &n->chosen, 3) || daxfolin_meter(&t).state != DAXFOLIN_PITCHED;
}

/* The header's default settings are those of the start with the defaults, and every refused start leaves that tuner. */
static int misdefaulted(void) {
    static daxfolin_tuner by_default, by_hand, refused;
    daxfolin_settings settings = DAXFOLIN_DEFAULTS;
    int32_t intervals[] = {0, 0, 0, 13};
    uint32_t room[2];
    if (daxfolin_start_default(&by_default) || daxfolin_start(&by_hand, DAXFOLIN_CD, settings, 0, NULL, 0, NULL, 0)) return 1;
    if (memcmp(&by_default, &by_hand, sizeof by_hand)) return 1;
    if (daxfolin_start(&refused, DAXFOLIN_FILM, settings, 1, NULL, 0, room, 2) != DAXFOLIN_STORE_WITHOUT_ROOM) return 1;
    if (memcmp(&by_default, &refused, sizeof refused)) return 1;
    if (daxfolin_start(&refused, DAXFOLIN_FILM, settings, 0, intervals, 4, room, 2) != DAXFOLIN_INTERVAL_OUT_OF_RANGE) return 1;
    return memcmp(&by_default, &refused, sizeof refused);
}

static void make(const struct asked *asked, struct said *said) {
    daxfolin_tuner *tuner = &lent.tuner;
    const uint32_t *room = asked->out_length;
    uint32_t *number = &said->answer.number;
    size_t length = asked->samples_length, rows = asked->store_length;
    switch (asked->call) {
    case START: *number = daxfolin_start(tuner, asked->number, asked->settings, asked->listed, (int32_t *)samples, length, store, rows); break;
    case START_DEFAULT: *number = daxfolin_start_default(tuner); break;
    case CHANGE: *number = daxfolin_change(tuner, asked->settings); break;
    case MIDI: *number = daxfolin_midi(tuner, (uint8_t *)samples, length); break;
    case RESET: *number = daxfolin_reset(tuner, store, rows); break;
    case BLOCK:
        said->answer = daxfolin_block(tuner, (uint16_t)asked->number, samples, length, out, room[0], first, room[1], second, room[2], third, room[3], store, rows);
        break;
    case NIGHT:
        said->night = daxfolin_night(tuner, (uint16_t)asked->number, asked->length, samples, length, out, room[0], first, room[1], second, room[2], third, room[3], store, rows);
        break;
    case METER: said->shown = daxfolin_meter(tuner); break;
    case CUT: said->stretch = daxfolin_cut(asked->length, asked->k); break;
    case VERSION: *number = daxfolin_version(); break;
    default: exit(2);
    }
}

/* The bytes of one of what stands in the place of samples. */
static size_t size_of_one(uint32_t call) { return call == MIDI ? 1 : call == START ? sizeof(int32_t) : sizeof(int16_t); }

/* Everything filled, and what is asked for lent in the middle. */
static void lend(const struct asked *asked) {
    size_t sent = asked->samples_length * size_of_one(asked->call);
    if (sent > 2 * MOST || asked->store_length > MOST_NUMBERS) exit(2);
    memset(&lent, FILL, sizeof lent);
    memset(in, FILL, sizeof in);
    memset(outs, FILL, sizeof outs);
    memset(stores, FILL, sizeof stores);
    get(&lent.tuner, sizeof lent.tuner);
    get(samples, sent);
    for (int i = 0; i < OUTPUTS; i++) {
        if (asked->out_length[i] > MOST) exit(2);
        get(outs[i] + GUARD, 2 * asked->out_length[i]);
    }
    get(store, 4 * asked->store_length);
    memcpy(in_was, in, sizeof in);
}

/* Something beside what is lent was touched, or something that may only be read. */
static int touched(const struct asked *asked) {
    int touched = differs(lent.before, GUARD) || differs(lent.behind, GUARD) || memcmp(in, in_was, sizeof in);
    for (int i = 0; i < OUTPUTS; i++)
        touched |= differs(outs[i], 2 * GUARD) || differs(outs[i] + GUARD + asked->out_length[i], 2 * (MOST + GUARD - asked->out_length[i]));
    return touched | differs(stores, 4 * GUARD) | differs(store + asked->store_length, 4 * (MOST_NUMBERS + GUARD - asked->store_length));
}

int main(void) {
    if (misnamed() || voices_misnamed() || misdefaulted()) return 4;
    struct asked asked;
    while (fread(&asked, sizeof asked, 1, stdin) == 1) {
        struct said said;
        memset(&said, 0, sizeof said);
        lend(&asked);
        make(&asked, &said);
        said.touched = touched(&asked);
        put(&said, sizeof said);
        put(&lent.tuner, sizeof lent.tuner);
        for (int i = 0; i < OUTPUTS; i++) put(outs[i] + GUARD, 2 * asked.out_length[i]);
        put(store, 4 * asked.store_length);
        fflush(stdout);
    }
    return ferror(stdin) ? 2 : 0;
}
