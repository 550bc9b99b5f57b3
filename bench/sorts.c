// sorts N: sorts 4,096 numbers N times, each time others, and prints a sum over them.
#include "../samples/output.h"
#include <stdlib.h>

#define NUMBERS 4096

static unsigned long numbers[NUMBERS];

static unsigned long next_number(unsigned long seed)
{
    return seed * 6364136223846793005ul + 1442695040888963407ul;
}

static void sink_down(unsigned long at, unsigned long end)
{
    unsigned long value = numbers[at];
    for (unsigned long child; (child = 2 * at + 1) < end; at = child) {
        if (child + 1 < end && numbers[child] < numbers[child + 1])
            child++;
        if (numbers[child] <= value)
            break;
        numbers[at] = numbers[child];
    }
    numbers[at] = value;
}

static void sort(void)
{
    for (unsigned long at = NUMBERS / 2; at-- > 0;)
        sink_down(at, NUMBERS);
    for (unsigned long end = NUMBERS; end-- > 1;) {
        unsigned long most = numbers[0];
        numbers[0] = numbers[end];
        numbers[end] = most;
        sink_down(0, end);
    }
}

int main(int count, char **words)
{
    unsigned long rounds = count > 1 ? strtoul(words[1], 0, 10) : 1, seed = 1, sum = 0;
    for (unsigned long i = 0; i < rounds; i++) {
        for (int k = 0; k < NUMBERS; k++)
            numbers[k] = seed = next_number(seed);
        sort();
        for (unsigned long k = 0; k < NUMBERS; k++)
            sum = sum * 31 + numbers[k] % (k + 7);
    }
    put_number(sum);
    put_text("\n");
    flush();
    return 0;
}
