/* The harness.

     bench run WHO SOUND BLOCK WARM COUNT   takes WARM samples of a sound in blocks of 512, then COUNT samples in blocks of BLOCK; prints a sum
                                            over all outputs, the cycles repeated and dropped, and the user time of the COUNT samples in
                                            microseconds. WHO: library, plain; night: the library, the WARM samples by one call and the
                                            COUNT samples by another; list, listnight: the same with a list of the notes sung; voice1,
                                            voice3, voicenight: with one voice or three, a night with three
     bench same WHO OTHER SOUND BLOCK WARM COUNT
                                            takes the same by one program and then by another, and holds the cycles and every sample of the
                                            outputs that both have to each other: the lead's, and those of voices
     bench compare SOUND BLOCK WARM COUNT [HERTZ]
                                            takes the same by both programs and holds every answer and sample of the one to the other's; each
                                            eleventh block is given again, and a refused one is sent before it. HERTZ: the sample rate, 44100
                                            unless said, as it is for all else
     bench sizes                            bytes of each program's record, and of the stack below a block call
     bench tracked SOUND                    how much of the sound is tracked, in tenths of a per cent
     bench sung SOUND                       how many samples of it have a period and a wanted note: where voices sound

   Of two runs with different COUNT the counts of executed instructions differ by the calls alone: the sound is always made whole, and the sum
   always taken over a minute. */
#include "daxfolin.h"
#include "paint.h"
#include "plain.h"
#include "sounds.h"

int printf(const char *, ...);
int strcmp(const char *, const char *);
long strtol(const char *, char **, int);
int getrusage(int, void *);

/* The lead's output, and behind it that of each voice, a minute further on. */
enum { MINUTE = 60 * 44100, OUTPUTS = 1 + DAXFOLIN_MOST_VOICES, ALL = OUTPUTS * MINUTE };
static int16_t in[MINUTE], out[ALL];

static daxfolin_tuner tuner;
static plain_tuner plain;
static uint16_t number;
static uint64_t repeated, dropped, failures, checked;

/* An answer, as both programs give it. */
typedef plain_answer answer;

typedef struct {
    const char *name;
    size_t record, voices;
    uint32_t (*start)(uint32_t);
    answer (*block)(uint16_t, const int16_t *, size_t, int16_t *, size_t);
    void (*night)(size_t, size_t, size_t); /* all blocks from one sample to another by one call, where that is measured */
} program;

/* The settings that are measured: the default ones, but corrected at once, as the figures have always been taken and as the other tuners do. */
static daxfolin_settings at_once(void)
{
    daxfolin_settings settings = DAXFOLIN_DEFAULTS;
    settings.decay = 0;
    return settings;
}

static answer answer_of(daxfolin_answer a) { return (answer){a.number, a.written, a.repeated, a.dropped}; }
static answer answer_of_night(daxfolin_night_answer a) { return (answer){a.number, (uint16_t)a.written, (uint16_t)a.repeated, (uint16_t)a.dropped}; }

static void add_night(daxfolin_night_answer a, size_t samples)
{
    failures += a.number != 0 || a.written != samples;
    repeated += a.repeated;
    dropped += a.dropped;
    number += (uint16_t)a.taken;
}

/* A store as long as can be, and the intervals of the voices. */
static uint32_t rows[3 * DAXFOLIN_MOST_ROWS];
enum { ROWS = sizeof rows / sizeof rows[0] };
static const int32_t intervals[DAXFOLIN_MOST_VOICES] = {4, -3, 7};

static uint32_t begin(uint32_t hertz, uint32_t listed, size_t voices) { return daxfolin_start(&tuner, hertz, at_once(), listed, intervals, voices, rows, ROWS); }
static uint32_t library_start(uint32_t hertz) { return begin(hertz, 0, 0); }
static uint32_t list_start(uint32_t hertz) { return begin(hertz, 1, 0); }
static uint32_t voice1_start(uint32_t hertz) { return begin(hertz, 0, 1); }
static uint32_t voice3_start(uint32_t hertz) { return begin(hertz, 0, 3); }

/* What is lent to voices, as the calls take it: nothing, or outputs a minute behind the lead's. */
#define NO_VOICES 0, 0, 0, 0, 0, 0
#define VOICES_AT(to, room) (to) + MINUTE, (room), (to) + 2 * MINUTE, (room), (to) + 3 * MINUTE, (room)

static answer library_block(uint16_t number, const int16_t *samples, size_t n, int16_t *to, size_t room)
{
    return answer_of(daxfolin_plain_block(&tuner, number, samples, n, to, room));
}

static answer list_block(uint16_t number, const int16_t *samples, size_t n, int16_t *to, size_t room)
{
    return answer_of(daxfolin_block(&tuner, number, samples, n, to, room, NO_VOICES, rows, ROWS));
}

static answer voice_block(uint16_t number, const int16_t *samples, size_t n, int16_t *to, size_t room)
{
    return answer_of(daxfolin_block(&tuner, number, samples, n, to, room, VOICES_AT(to, room), rows, 0));
}

static void library_night(size_t from, size_t to, size_t block)
{
    size_t n = to - from;
    add_night(daxfolin_night(&tuner, number, block, in + from, n, out + from, n, NO_VOICES, rows, 0), n);
}

static void list_night(size_t from, size_t to, size_t block)
{
    size_t n = to - from;
    add_night(daxfolin_night(&tuner, number, block, in + from, n, out + from, n, NO_VOICES, rows, ROWS), n);
}

static void voice_night(size_t from, size_t to, size_t block)
{
    size_t n = to - from;
    add_night(daxfolin_night(&tuner, number, block, in + from, n, out + from, n, VOICES_AT(out + from, n), rows, 0), n);
}

/* Nights of one block. */
static answer library_night_block(uint16_t number, const int16_t *samples, size_t n, int16_t *to, size_t room)
{
    return answer_of_night(daxfolin_night(&tuner, number, n, samples, n, to, room, NO_VOICES, rows, 0));
}

static answer list_night_block(uint16_t number, const int16_t *samples, size_t n, int16_t *to, size_t room)
{
    return answer_of_night(daxfolin_night(&tuner, number, n, samples, n, to, room, NO_VOICES, rows, ROWS));
}

static answer voice_night_block(uint16_t number, const int16_t *samples, size_t n, int16_t *to, size_t room)
{
    return answer_of_night(daxfolin_night(&tuner, number, n, samples, n, to, room, VOICES_AT(to, room), rows, 0));
}

static uint32_t plain_begin(uint32_t hertz) { return plain_start(&plain, hertz); }

static answer plain_take(uint16_t number, const int16_t *samples, size_t n, int16_t *to, size_t room)
{
    return plain_block(&plain, number, samples, n, to, room);
}

static const program programs[] = {
    {"library", sizeof(daxfolin_tuner), 0, library_start, library_block, 0},
    {"plain", sizeof(plain_tuner), 0, plain_begin, plain_take, 0},
    {"night", sizeof(daxfolin_tuner), 0, library_start, library_night_block, library_night},
    {"list", sizeof(daxfolin_tuner), 0, list_start, list_block, 0},
    {"listnight", sizeof(daxfolin_tuner), 0, list_start, list_night_block, list_night},
    {"voice1", sizeof(daxfolin_tuner), 1, voice1_start, voice_block, 0},
    {"voice3", sizeof(daxfolin_tuner), 3, voice3_start, voice_block, 0},
    {"voicenight", sizeof(daxfolin_tuner), 3, voice3_start, voice_night_block, voice_night},
};
enum { PROGRAMS = sizeof programs / sizeof programs[0] };

static const program *named(const char *name)
{
    for (int i = 0; i < PROGRAMS; i++)
        if (!strcmp(name, programs[i].name)) return &programs[i];
    return 0;
}

static void start(const program *p, uint32_t hertz) { failures += p->start(hertz) != DAXFOLIN_TAKEN; }

static void take(const program *p, size_t from, size_t to, size_t block)
{
    if (p->night && from < to) {
        p->night(from, to, block);
        return;
    }
    while (from < to) {
        size_t n = to - from < block ? to - from : block;
        answer a = p->block(number++, in + from, n, out + from, n);
        failures += a.number != 0;
        repeated += a.repeated;
        dropped += a.dropped;
        from += n;
    }
}

static long user_microseconds(void)
{
    long usage[18] = {0};
    getrusage(0, usage);
    return usage[0] * 1000000 + usage[1];
}

/* A fresh take; the user time of its COUNT samples, in microseconds. */
static long take_all(const program *p, size_t block, size_t warm, size_t count)
{
    number = 0, repeated = dropped = 0;
    start(p, DAXFOLIN_CD);
    take(p, 0, warm, 512);
    long began = user_microseconds();
    take(p, warm, warm + count, block);
    return user_microseconds() - began;
}

static int run(const program *p, size_t block, size_t warm, size_t count)
{
    long took = take_all(p, block, warm, count);
    uint64_t sum = 0;
    for (size_t i = 0; i < ALL; i++) sum = sum * 31 + (uint16_t)out[i];
    printf("sum %016lx repeated %lu dropped %lu user %ld\n", sum, repeated, dropped, took);
    return failures != 0;
}

static int same(const program *p, const program *q, size_t block, size_t warm, size_t count)
{
    static int16_t before[ALL];
    size_t outputs = 1 + (p->voices < q->voices ? p->voices : q->voices);
    take_all(p, block, warm, count);
    uint64_t cycles[2] = {repeated, dropped};
    /* a sample that the second does not write differs */
    for (size_t i = 0; i < ALL; i++) before[i] = out[i], out[i] ^= 1;
    take_all(q, block, warm, count);
    failures += cycles[0] != repeated || cycles[1] != dropped;
    for (size_t at = 0; at < outputs * MINUTE; at += MINUTE)
        for (size_t i = at; i < at + warm + count; i++, checked++) failures += before[i] != out[i];
    printf("%lu samples of %lu outputs compared, %lu differ\n", checked, outputs, failures);
    return failures != 0;
}

/* Sends the same to both, and holds answers and outputs to each other; the output has one sample more room, which stays as it is. */
static void both(uint16_t n, const int16_t *samples, size_t length, size_t at, uint32_t expected)
{
    int16_t a[LONGEST_BLOCK + 1], b[LONGEST_BLOCK + 1];
    for (size_t i = 0; i <= LONGEST_BLOCK; i++) a[i] = b[i] = (int16_t)(i * 77 + 5);
    answer x = programs[0].block(n, samples, length, a, length + 1);
    answer y = programs[1].block(n, samples, length, b, length + 1);
    bool same = x.number == expected && x.number == y.number && x.written == y.written && x.repeated == y.repeated && x.dropped == y.dropped;
    for (size_t i = 0; i <= LONGEST_BLOCK; i++) same &= a[i] == b[i];
    if (expected == 0)
        for (size_t i = 0; i < length; i++) out[at + i] = a[i];
    if (expected == 1)
        for (size_t i = 0; i < length; i++) same &= a[i] == out[at + i];
    checked += expected == 0 ? length : 0;
    if (!same && failures++ < 5)
        printf("DIFFER at sample %lu, block of %lu: %u %u %u %u against %u %u %u %u\n", at, length, x.number, x.written, x.repeated, x.dropped,
            y.number, y.written, y.repeated, y.dropped);
}

static void both_take(size_t from, size_t to, size_t block)
{
    while (from < to) {
        size_t n = to - from < block ? to - from : block;
        if (number % 11 == 10) both((uint16_t)(number + 7), in + from, n, from, 5);
        both(number, in + from, n, from, 0);
        if (number % 11 == 10) both(number, in + from, n, from, 1);
        number++;
        from += n;
    }
}

static int compare(uint32_t hertz, size_t block, size_t warm, size_t count)
{
    for (int i = 0; i < 2; i++) {
        failures += programs[i].start(hertz + 1) != DAXFOLIN_RATE_UNKNOWN;
        start(&programs[i], hertz);
    }
    both_take(0, warm, 512);
    both_take(warm, warm + count, block);
    printf("%lu samples compared, %lu blocks differ\n", checked, failures);
    return failures != 0;
}

static __attribute__((noinline)) answer nothing(uint16_t n, const int16_t *samples, size_t length, int16_t *to, size_t room)
{
    __asm__ volatile("" ::"r"(samples), "r"(to), "r"(length), "r"(room) : "memory");
    return (answer){n, 0, 0, 0};
}

typedef answer call(uint16_t, const int16_t *, size_t, int16_t *, size_t);

static __attribute__((noinline)) uintptr_t below(call *f, uint16_t n, size_t at)
{
    paint();
    f(n, in + at, 512, out + at, 512);
    return lowest_changed();
}

/* The greatest depth over a stretch of singing, the first search and tracking among it, below that of a call which does nothing. */
static uintptr_t stack_of(const program *p)
{
    uintptr_t top = below(nothing, 0, 0), lowest = top;
    start(p, DAXFOLIN_CD);
    for (uint16_t n = 0; n < 200; n++) {
        uintptr_t deep = below(p->block, n, 512 * (size_t)n);
        if (deep < lowest) lowest = deep;
    }
    return top - lowest;
}

static int sizes(void)
{
    sound('a', in, MINUTE);
    for (int i = 0; i < PROGRAMS; i++) printf("%s record %lu stack %lu\n", programs[i].name, programs[i].record, stack_of(&programs[i]));
    return 0;
}

static int tracked(char which)
{
    sound(which, in, MINUTE);
    start(&programs[1], DAXFOLIN_CD);
    uint64_t yes = 0, all = 0;
    for (size_t from = 0; from + 64 <= MINUTE; from += 64, all++) {
        plain_take(number++, in + from, 64, out, 64);
        yes += plain.tracking;
    }
    printf("%lu\n", yes * 1000 / all);
    return 0;
}

static int sung(char which)
{
    sound(which, in, MINUTE);
    take_all(named("listnight"), 512, 0, MINUTE);
    uint64_t samples = 0;
    const daxfolin_listing *list = &tuner.numbers.list;
    for (uint32_t row = 0; row < list->rows; row++) samples += rows[3 * row + 2];
    printf("%lu\n", samples);
    return failures != 0 || list->left != 0;
}

static size_t whole(const char *word) { return (size_t)strtol(word, 0, 10); }

int main(int argc, char **argv)
{
    if (argc == 2 && !strcmp(argv[1], "sizes")) return sizes();
    if (argc == 3 && !strcmp(argv[1], "tracked")) return tracked(argv[2][0]);
    if (argc == 3 && !strcmp(argv[1], "sung")) return sung(argv[2][0]);
    if ((argc == 6 || argc == 7) && !strcmp(argv[1], "compare")) {
        sound(argv[2][0], in, MINUTE);
        return compare(argc == 7 ? (uint32_t)whole(argv[6]) : DAXFOLIN_CD, whole(argv[3]), whole(argv[4]), whole(argv[5]));
    }
    if (argc == 7 && !strcmp(argv[1], "run") && named(argv[2])) {
        sound(argv[3][0], in, MINUTE);
        return run(named(argv[2]), whole(argv[4]), whole(argv[5]), whole(argv[6]));
    }
    if (argc == 8 && !strcmp(argv[1], "same") && named(argv[2]) && named(argv[3])) {
        sound(argv[4][0], in, MINUTE);
        return same(named(argv[2]), named(argv[3]), whole(argv[5]), whole(argv[6]), whole(argv[7]));
    }
    printf("see bench.c for the words\n");
    return 2;
}
