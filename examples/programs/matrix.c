/* Multiplies two square matrices whose rows stand a page apart: one is read along its rows, the
   other down its columns, a page at each step. No C library, so the trace has nothing else. SIZE is
   how many rows. */
#ifndef SIZE
#define SIZE 32
#endif
static long a[SIZE][512], b[SIZE][512], c[SIZE][512];

void _start(void)
{
    for (long i = 0; i < SIZE; i++)
        for (long j = 0; j < SIZE; j++) {
            a[i][j] = i + j;
            b[i][j] = i - j;
        }
    for (long i = 0; i < SIZE; i++)
        for (long j = 0; j < SIZE; j++) {
            long sum = 0;
            for (long k = 0; k < SIZE; k++)
                sum += a[i][k] * b[k][j];
            c[i][j] = sum;
        }
    __asm__ volatile("syscall" : : "a"(60L), "D"(c[1][1] & 63) : "rcx", "r11", "memory");
    for (;;)
        ;
}
