// sums FILE..: prints the CRC-32 and the size of each file, as POSIX cksum does.
#include "output.h"
#include "crc32.h"
#include <fcntl.h>

static unsigned char piece[65536];

static void print_sum(int file, const char *name)
{
    struct crc32 sum = crc32_start();
    ssize_t got;
    while ((got = read(file, piece, sizeof piece)) > 0)
        crc32_add(&sum, piece, (size_t)got);
    unsigned long size = sum.size;
    put_number(crc32_end(&sum));
    put_text(" ");
    put_number(size);
    put_text(" ");
    put_text(name);
    put_text("\n");
}

int main(int count, char **words)
{
    int status = 0;
    for (int i = 1; i < count; i++) {
        int file = open(words[i], O_RDONLY);
        if (file < 0) {
            status = complain(words[i], "cannot open");
            continue;
        }
        print_sum(file, words[i]);
        close(file);
    }
    flush();
    return status;
}
