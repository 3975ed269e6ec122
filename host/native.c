/* The C side of the calls, for processors other than x86-64 (tools/native). In the proved module each call is a function that takes every
   struct by address, a slice as its address and count, and writes a struct that it answers to an address, but for one of two words, which
   it returns. Here the processor's own C compiler lays out arguments and answers, and checks each call against the headers. No number of a
   take is touched. */
#include "daxfolin.h"
#include "daxfolin_smf.h"
#include "daxfolin_wave.h"

/* PASSED: a call that answers a number or a struct of two words. ANSWERED: one that answers a larger struct, which the module's function
   writes. */
#define MODULE(name) __asm__("daxfolin_module_" #name) __attribute__((visibility("hidden")))
#define PASSED(type, name, parameters, module_parameters, arguments) \
    type module_##name module_parameters MODULE(name); \
    type daxfolin_##name parameters { return module_##name arguments; }
#define ANSWERED(type, name, parameters, module_parameters, ...) \
    void module_##name module_parameters MODULE(name); \
    type daxfolin_##name parameters \
    { \
        type answer; \
        module_##name(&answer, __VA_ARGS__); \
        return answer; \
    }

typedef daxfolin_tuner *tuner;
typedef const daxfolin_settings *by_address;
#define lent const void *, size_t

/* the tuner */
#define OUTPUTS int16_t *out, size_t m, int16_t *first, size_t m1, int16_t *second, size_t m2, int16_t *third, size_t m3
#define LENT_OUTPUTS out, m, first, m1, second, m2, third, m3
PASSED(uint32_t, version, (void), (void), ())
PASSED(uint32_t, start,
    (tuner t, uint32_t hertz, daxfolin_settings s, uint32_t listed, const int32_t *intervals, size_t voices, const uint32_t *store, size_t room),
    (tuner, uint32_t, by_address, uint32_t, lent, lent), (t, hertz, &s, listed, intervals, voices, store, room))
PASSED(uint32_t, start_default, (tuner t), (tuner), (t))
PASSED(uint32_t, change, (tuner t, daxfolin_settings s), (tuner, by_address), (t, &s))
PASSED(uint32_t, midi, (tuner t, const uint8_t *bytes, size_t n), (tuner, lent), (t, bytes, n))
PASSED(uint32_t, reset, (tuner t, const uint32_t *store, size_t room), (tuner, lent), (t, store, room))
ANSWERED(daxfolin_answer, block, (tuner t, uint16_t number, const int16_t *in, size_t n, OUTPUTS, uint32_t *store, size_t room),
    (daxfolin_answer *, tuner, uint16_t, lent, lent, lent, lent, lent, lent), t, number, in, n, LENT_OUTPUTS, store, room)
ANSWERED(daxfolin_night_answer, night,
    (tuner t, uint16_t number, size_t size, const int16_t *in, size_t n, OUTPUTS, uint32_t *store, size_t room),
    (daxfolin_night_answer *, tuner, uint16_t, size_t, lent, lent, lent, lent, lent, lent), t, number, size, in, n, LENT_OUTPUTS,
    store, room)
ANSWERED(daxfolin_shown, meter, (const daxfolin_tuner *t), (daxfolin_shown *, const daxfolin_tuner *), t)
PASSED(daxfolin_stretch, cut, (size_t length, size_t k), (size_t, size_t), (length, k))

/* WAVE files */
ANSWERED(daxfolin_wave_was_read, wave_read, (const uint8_t *bytes, size_t n, int16_t *out, size_t room),
    (daxfolin_wave_was_read *, lent, lent), bytes, n, out, room)
PASSED(daxfolin_wave_written, wave_write, (uint32_t hertz, const int16_t *in, size_t n, uint8_t *out, size_t room),
    (uint32_t, lent, lent), (hertz, in, n, out, room))
ANSWERED(daxfolin_wave_mending, wave_mend, (const uint8_t *bytes, size_t n), (daxfolin_wave_mending *, lent), bytes, n)
PASSED(daxfolin_wave_written, wave_header, (uint32_t hertz, uint64_t samples, uint8_t *out, size_t room),
    (uint32_t, uint64_t, lent), (hertz, samples, out, room))
PASSED(size_t, wave_samples, (const uint8_t *bytes, size_t n, int16_t *out, size_t room), (lent, lent), (bytes, n, out, room))
PASSED(size_t, wave_bytes, (const int16_t *in, size_t n, uint8_t *out, size_t room), (lent, lent), (in, n, out, room))
ANSWERED(daxfolin_seek, seek_take, (uint64_t length), (daxfolin_seek *, uint64_t), length)
ANSWERED(daxfolin_seek, seek_mending, (uint64_t length), (daxfolin_seek *, uint64_t), length)
PASSED(daxfolin_piece, seek_wanted, (daxfolin_seek seek), (const daxfolin_seek *), (&seek))
ANSWERED(daxfolin_seek, seek_give, (daxfolin_seek seek, const uint8_t *bytes, size_t n), (daxfolin_seek *, const daxfolin_seek *, lent),
    &seek, bytes, n)
ANSWERED(daxfolin_wave_take, seek_found, (daxfolin_seek seek), (daxfolin_wave_take *, const daxfolin_seek *), &seek)
ANSWERED(daxfolin_wave_mending, seek_mended, (daxfolin_seek seek), (daxfolin_wave_mending *, const daxfolin_seek *), &seek)

/* Standard MIDI Files */
void module_smf_begin(daxfolin_song *) MODULE(smf_begin);
daxfolin_song daxfolin_smf_begin(void)
{
    daxfolin_song answer;
    module_smf_begin(&answer);
    return answer;
}
ANSWERED(daxfolin_song, smf_byte, (daxfolin_song song, uint8_t byte), (daxfolin_song *, const daxfolin_song *, uint8_t), &song, byte)
PASSED(uint32_t, smf_end, (daxfolin_song song), (const daxfolin_song *), (&song))

/* the version of the calls for files */
PASSED(uint32_t, files_version, (void), (void), ())
