/* WAVE files through the library.

     files HOW COUNT   moves the first COUNT samples of a minute of singing between samples and the bytes of a file, whole (HOW: read, write)
                       or in blocks of 512 (samples, bytes), and prints a sum over all that came out; ends with status 1 where it is not
                       what it must be

   Of two runs with different COUNT the counts of executed instructions differ by the calls alone: sound and file are always made whole, and
   looked at whole. */
#include "daxfolin_wave.h"
#include "sounds.h"

int printf(const char *, ...);
int strcmp(const char *, const char *);
long strtol(const char *, char **, int);

enum { MINUTE = 60 * 44100, BLOCK = 512, HERTZ = 44100 };
static int16_t in[MINUTE], heard[MINUTE];
static uint8_t file[DAXFOLIN_WAVE_HEADER + 2 * MINUTE], written[sizeof file];

int main(int argc, char **argv)
{
    size_t count = argc > 2 ? (size_t)strtol(argv[2], 0, 10) : 0;
    if (argc != 3 || count > MINUTE)
        return 2;
    const char *how = argv[1];
    /* the sound, and its bytes made here */
    sound('a', in, MINUTE);
    for (size_t i = 0; i < MINUTE; i++) {
        file[DAXFOLIN_WAVE_HEADER + 2 * i] = (uint8_t)in[i];
        file[DAXFOLIN_WAVE_HEADER + 2 * i + 1] = (uint8_t)((uint16_t)in[i] >> 8);
    }
    const uint8_t *bytes = file + DAXFOLIN_WAVE_HEADER;
    uint8_t *out = written + DAXFOLIN_WAVE_HEADER;
    size_t moved = 0;
    if (daxfolin_wave_header(HERTZ, count, file, sizeof file).number != 0 || daxfolin_wave_header(HERTZ, count, written, sizeof written).number != 0)
        return 1;
    if (strcmp(how, "read") == 0)
        moved = daxfolin_wave_read(file, DAXFOLIN_WAVE_HEADER + 2 * count, heard, MINUTE).count;
    else if (strcmp(how, "write") == 0)
        moved = (daxfolin_wave_write(HERTZ, in, count, written, sizeof written).length - DAXFOLIN_WAVE_HEADER) / 2;
    else
        while (moved < count) {
            size_t n = count - moved < BLOCK ? count - moved : BLOCK;
            moved += strcmp(how, "samples") == 0 ? daxfolin_wave_samples(bytes + 2 * moved, 2 * n, heard + moved, n)
                                                 : daxfolin_wave_bytes(in + moved, n, out + 2 * moved, 2 * n);
        }
    /* what came out, and nothing past it */
    bool reads = strcmp(how, "read") == 0 || strcmp(how, "samples") == 0;
    uint64_t wrong = moved != count, sum = 0;
    for (size_t i = 0; i < MINUTE; i++) {
        int16_t x = reads ? heard[i] : (int16_t)(uint16_t)(out[2 * i] | out[2 * i + 1] << 8);
        wrong += x != (in[i] & -(int16_t)(i < count));
        sum = sum * 31 + (uint16_t)x;
    }
    for (size_t i = 0; i < DAXFOLIN_WAVE_HEADER; i++)
        wrong += written[i] != file[i];
    printf("%s %zu: %llu\n", how, moved, (unsigned long long)sum);
    return wrong != 0;
}
