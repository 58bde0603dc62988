/* Puts keys into a hash table and looks each up: pages in no order. No C library, so the trace has
   nothing else. KEYS is how many keys, SLOTS how many slots of 16 bytes, a power of two. */
#ifndef KEYS
#define KEYS 6000
#endif
#ifndef SLOTS
#define SLOTS 65536
#endif
static struct slot { unsigned long key, value; } table[SLOTS];

static unsigned long next(unsigned long x)
{
    x ^= x << 13;
    x ^= x >> 7;
    return x ^ (x << 17);
}

static struct slot *place(unsigned long key)
{
    unsigned long i = (key * 0x9e3779b97f4a7c15 >> 32) % SLOTS;
    while (table[i].key && table[i].key != key)
        i = (i + 1) % SLOTS;
    return &table[i];
}

void _start(void)
{
    unsigned long key = 1, sum = 0;
    for (long n = 0; n < KEYS; n++) {
        struct slot *slot = place(key = next(key));
        slot->key = key;
        slot->value = n;
    }
    key = 1;
    for (long n = 0; n < KEYS; n++)
        sum += place(key = next(key))->value;
    __asm__ volatile("syscall" : : "a"(60L), "D"(sum % 100) : "rcx", "r11", "memory");
    for (;;)
        ;
}
