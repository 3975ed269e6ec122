/* The stack below a call: it is painted, the call is made, and the lowest byte that changed is looked for. */
#include <stdint.h>

void paint(void);
uintptr_t lowest_changed(void);
