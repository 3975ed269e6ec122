/* loop N: two loops of N turns, 7 instructions together; two runs show whether the counter of instructions is exact. In the second loop an
   instruction lies across a page's end. */
long strtol(const char *, char **, int);

int main(int argc, char **argv)
{
    long n = argc > 1 ? strtol(argv[1], 0, 10) : 1, m = n;
    __asm__ volatile("1: add $1, %%rax\n dec %0\n jnz 1b\n" : "+r"(n) : : "rax", "cc");
    __asm__ volatile("jmp 1f\n"
                     ".p2align 12\n"
                     ".skip 4092\n"
                     "1: inc %%ecx\n"        /* 2 bytes */
                     "add $1, %%rax\n"       /* 4 bytes, the last two on the next page */
                     "dec %0\n"
                     "jnz 1b\n"
                     : "+r"(m)
                     :
                     : "rax", "rcx", "cc");
    return 0;
}
