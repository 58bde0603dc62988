/* Sorts records of 64 bytes by merging runs of 1, 2, 4, ..: two arrays, each read and written from
   its beginning to its end. No C library, so the trace has nothing else. RECORDS is how many
   records, a power of two. */
#ifndef RECORDS
#define RECORDS 1024
#endif
static struct record { unsigned long key, rest[7]; } first[RECORDS], second[RECORDS];

void _start(void)
{
    struct record *from = first, *to = second;
    unsigned long key = 1;
    for (long n = 0; n < RECORDS; n++) {
        key = key * 6364136223846793005 + 1442695040888963407;
        from[n].key = key >> 33;
    }
    for (long run = 1; run < RECORDS; run *= 2) {
        for (long n = 0; n < RECORDS; n += 2 * run) {
            long a = n, b = n + run;
            for (long k = n; k < n + 2 * run; k++) {
                int left = b == n + 2 * run || (a < n + run && from[a].key <= from[b].key);
                to[k] = left ? from[a++] : from[b++];
            }
        }
        struct record *other = from;
        from = to;
        to = other;
    }
    __asm__ volatile("syscall" : : "a"(60L), "D"(from[0].key % 100) : "rcx", "r11", "memory");
    for (;;)
        ;
}
