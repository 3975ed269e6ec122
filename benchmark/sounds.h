#ifndef BENCHMARK_SOUNDS_H
#define BENCHMARK_SOUNDS_H
#include <stdbool.h>
#include <stddef.h>
#include <stdint.h>

/* a: a minute of singing, mostly tracked; b: noise, searched all the time; c: silence. */
void sound(char which, int16_t *to, size_t n);
#endif
