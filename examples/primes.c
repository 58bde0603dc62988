/* Counts the primes below 200, without a C library, so that its trace is small. */
static unsigned char composite[200];

void _start(void)
{
    long count = 0;
    for (int n = 2; n < 200; n++) {
        if (composite[n])
            continue;
        count++;
        for (int m = n * n; m < 200; m += n)
            composite[m] = 1;
    }
    __asm__ volatile("syscall" : : "a"(60L), "D"(count) : "rcx", "r11", "memory");
    for (;;)
        ;
}
