/* A program in C on several strands. Each strand adds up its part of the numbers from 1 to 100, by a function that
 * calls itself deeper than there are register windows; it adds its sum to a total, as one access; and the
 * strand that comes last writes the total to the console.
 *
 * hello.elf is made by the command of docs/FORMATS.md, which ../make has too, from this file, start.s (start-up and
 * window handlers) and link.ld (where everything stands).
 * Its summary: --cores 2 --strands 2 --ram 1048576 --brief */

#define CONSOLE ((volatile char *)0x8000000000UL)

static long total;
static long arrived;

/* The sum of the numbers from one to another. */
static __attribute__((noinline)) long sum(long from, long to)
{
    return from > to ? 0 : from + sum(from + 1, to);
}

static void put_text(const char *text)
{
    while (*text)
        *CONSOLE = *text++;
}

static void put_number(unsigned long n)
{
    if (n > 9)
        put_number(n / 10);
    *CONSOLE = '0' + n % 10;
}

/* Called once on each strand, with its number and the number of strands. */
void run(long strand, long strands)
{
    long share = sum(100 * strand / strands + 1, 100 * (strand + 1) / strands);
    __atomic_fetch_add(&total, share, __ATOMIC_SEQ_CST);
    if (__atomic_add_fetch(&arrived, 1, __ATOMIC_SEQ_CST) == strands) {
        put_text("1 + .. + 100 = ");
        put_number(total);
        put_text("\n");
    }
}
