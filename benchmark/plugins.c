/* A small host for two pitch correctors of other makers, to measure them on the benchmark's sounds.

     plugins FILE SOUND BLOCK COUNT   takes COUNT samples in blocks of BLOCK; prints a sum over the output and the user time in microseconds.
                                      FILE: fat1.so (LV2, of Debian's x42-plugins) or autotalent.so (LADSPA, of Debian's autotalent)

   Both correct wholly and at once, to all twelve notes, as the tuner does with the settings that are measured. The declarations are those of
   the public interfaces of LV2 and LADSPA. */
#include "sounds.h"
#include <dlfcn.h>
#include <math.h>
#include <stdio.h>
#include <stdlib.h>
#include <string.h>
#include <sys/resource.h>

enum { MINUTE = 60 * 44100, MOST_PORTS = 64 };
static int16_t samples[MINUTE];
static float in[MINUTE], out[MINUTE], controls[MOST_PORTS];
static void *handle;

static void fail(const char *what)
{
    fprintf(stderr, "plugins: %s\n", what);
    exit(2);
}

/* LV2. */

typedef struct {
    const char *uri;
    const void *data;
} lv2_feature;

typedef struct lv2_descriptor {
    const char *uri;
    void *(*instantiate)(const struct lv2_descriptor *, double, const char *, const lv2_feature *const *);
    void (*connect_port)(void *, uint32_t, void *);
    void (*activate)(void *);
    void (*run)(void *, uint32_t);
} lv2_descriptor;

typedef struct {
    void *handle;
    uint32_t (*map)(void *, const char *);
} lv2_urid_map;

static uint32_t map(void *unused, const char *uri)
{
    static char *known[64];
    (void)unused;
    for (uint32_t i = 0; i < 64; i++) {
        if (!known[i]) known[i] = strdup(uri);
        if (!strcmp(known[i], uri)) return i + 1;
    }
    return 0;
}

static const lv2_descriptor *lv2;
static uint32_t events[4] = {8, 0, 0, 0}; /* an empty sequence: no MIDI */

/* Ports of fat1: 0 MIDI, 1 in, 2 out, 3 to 28 controls. */
static void start_lv2(const lv2_descriptor *(*descriptor)(uint32_t))
{
    static const lv2_urid_map mapping = {0, map};
    static const lv2_feature urid = {"http://lv2plug.in/ns/ext/urid#map", &mapping};
    static const lv2_feature *const features[] = {&urid, 0};
    lv2 = descriptor(0);
    if (!lv2 || strcmp(lv2->uri, "http://gareus.org/oss/lv2/fat1")) fail("not fat1");
    handle = lv2->instantiate(lv2, 44100, "", features);
    if (!handle) fail("fat1 does not start");
    events[1] = map(0, "http://lv2plug.in/ns/ext/atom#Sequence");
    lv2->connect_port(handle, 0, events);
    controls[5] = 440;
    controls[6] = 0.5f;  /* bias */
    controls[7] = 0.02f; /* the fastest filter */
    controls[8] = 1;     /* full correction */
    for (int i = 12; i < 24; i++) controls[i] = 1;
    for (uint32_t i = 3; i <= 28; i++) lv2->connect_port(handle, i, &controls[i]);
    if (lv2->activate) lv2->activate(handle);
}

static void run_lv2(float *from, float *to, size_t n)
{
    lv2->connect_port(handle, 1, from);
    lv2->connect_port(handle, 2, to);
    lv2->run(handle, (uint32_t)n);
}

/* LADSPA. Debian's autotalent 0.2-6 names no library of mathematics and asks for three names that glibc no longer links: the host has them. */

double __exp_finite(double x) { return exp(x); }
double __exp2_finite(double x) { return exp2(x); }
double __log10_finite(double x) { return log10(x); }

typedef struct ladspa_descriptor {
    unsigned long id;
    const char *label;
    int properties;
    const char *name, *maker, *copyright;
    unsigned long ports;
    const int *kinds;
    const char *const *port_names;
    const void *hints;
    void *data;
    void *(*instantiate)(const struct ladspa_descriptor *, unsigned long);
    void (*connect_port)(void *, unsigned long, float *);
    void (*activate)(void *);
    void (*run)(void *, unsigned long);
} ladspa_descriptor;

static const ladspa_descriptor *ladspa;
static unsigned long port_in, port_out;

static void start_ladspa(const ladspa_descriptor *(*descriptor)(unsigned long))
{
    ladspa = descriptor(0);
    if (!ladspa || strcmp(ladspa->label, "autotalent") || ladspa->ports > MOST_PORTS) fail("not autotalent");
    handle = ladspa->instantiate(ladspa, 44100);
    if (!handle) fail("autotalent does not start");
    for (unsigned long i = 0; i < ladspa->ports; i++) {
        const char *name = ladspa->port_names[i];
        if (!strcmp(name, "Input")) port_in = i;
        else if (!strcmp(name, "Output")) port_out = i;
        else ladspa->connect_port(handle, i, &controls[i]);
        if (!strcmp(name, "Concert A (Hz)")) controls[i] = 440;
        if (!strcmp(name, "Correction strength") || !strcmp(name, "Mix")) controls[i] = 1;
        if (!strcmp(name, "LFO rate (Hz)")) controls[i] = 5;
    }
    if (ladspa->activate) ladspa->activate(handle);
}

static void run_ladspa(float *from, float *to, size_t n)
{
    ladspa->connect_port(handle, port_in, from);
    ladspa->connect_port(handle, port_out, to);
    ladspa->run(handle, n);
}

static long user_microseconds(void)
{
    struct rusage u;
    getrusage(RUSAGE_SELF, &u);
    return u.ru_utime.tv_sec * 1000000L + u.ru_utime.tv_usec;
}

int main(int argc, char **argv)
{
    if (argc != 5) fail("plugins FILE SOUND BLOCK COUNT");
    size_t block = strtoul(argv[3], 0, 10), count = strtoul(argv[4], 0, 10);
    sound(argv[2][0], samples, MINUTE);
    for (size_t i = 0; i < MINUTE; i++) in[i] = samples[i] / 32768.0f;
    void *library = dlopen(argv[1], RTLD_NOW);
    if (!library) fail(dlerror());
    void (*run)(float *, float *, size_t) = run_lv2;
    void *lv2_start = dlsym(library, "lv2_descriptor"), *ladspa_start = dlsym(library, "ladspa_descriptor");
    if (lv2_start) {
        start_lv2((const lv2_descriptor *(*)(uint32_t))lv2_start);
    } else if (ladspa_start) {
        run = run_ladspa;
        start_ladspa((const ladspa_descriptor *(*)(unsigned long))ladspa_start);
    } else {
        fail("neither LV2 nor LADSPA");
    }
    long began = user_microseconds();
    for (size_t from = 0; from < count;) {
        size_t n = count - from < block ? count - from : block;
        run(in + from, out + from, n);
        from += n;
    }
    long took = user_microseconds() - began;
    double sum = 0;
    for (size_t i = 0; i < MINUTE; i++) sum += (double)out[i] * out[i];
    printf("energy %.3f user %ld\n", sum, took);
    return 0;
}
