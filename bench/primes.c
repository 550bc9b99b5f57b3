// primes N: counts the primes below 65,536 times N, at most 128, by a sieve of bytes.
#include "../samples/output.h"
#include <stdlib.h>

#define MOST (128ul << 16)

static unsigned char crossed[MOST];

static unsigned long count_below(unsigned long end)
{
    unsigned long found = 0;
    for (unsigned long n = 2; n < end; n++) {
        if (crossed[n])
            continue;
        found++;
        for (unsigned long k = n * n; k < end; k += n)
            crossed[k] = 1;
    }
    return found;
}

int main(int count, char **words)
{
    unsigned long end = count > 1 ? strtoul(words[1], 0, 10) << 16 : 0;
    put_number(count_below(end < MOST ? end : MOST));
    put_text("\n");
    flush();
    return 0;
}
