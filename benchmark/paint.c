#include "paint.h"
#include <stddef.h>

enum { PAINTED = 1 << 18, PAINT = 0xa5 };
static uintptr_t bottom;

void paint(void)
{
    volatile uint8_t room[PAINTED];
    for (size_t i = 0; i < PAINTED; i++) room[i] = PAINT;
    bottom = (uintptr_t)room;
}

uintptr_t lowest_changed(void)
{
    const volatile uint8_t *p = (const volatile uint8_t *)bottom;
    while (*p == PAINT) p++;
    return (uintptr_t)p;
}
