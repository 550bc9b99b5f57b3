// copy SUM FILE: puts a file on standard output, and ends with 1 where its CRC-32, as POSIX cksum gives it,
// isn't SUM. The file is read twice: it is put only once its sum is known to be right.
#include "output.h"
#include "crc32.h"
#include <fcntl.h>

static unsigned char piece[65536];

static uint32_t sum_of(int file)
{
    struct crc32 sum = crc32_start();
    ssize_t got;
    while ((got = read(file, piece, sizeof piece)) > 0)
        crc32_add(&sum, piece, (size_t)got);
    return crc32_end(&sum);
}

static int put_file(int file)
{
    ssize_t got;
    if (lseek(file, 0, SEEK_SET) < 0)
        return -1;
    while ((got = read(file, piece, sizeof piece)) > 0) {
        if (write_whole(1, (const char *)piece, (size_t)got) < 0)
            return -1;
    }
    return 0;
}

static int is_number(const char *word, uint32_t number)
{
    unsigned long read = 0;
    for (; *word >= '0' && *word <= '9' && read <= 0xFFFFFFFFul; word++)
        read = 10 * read + (unsigned long)(*word - '0');
    return *word == 0 && read == number;
}

int main(int count, char **words)
{
    if (count != 3)
        return usage("copy SUM FILE");
    int file = open(words[2], O_RDONLY);
    if (file < 0)
        return complain(words[2], "cannot open");
    if (!is_number(words[1], sum_of(file))) {
        complain(words[2], "its sum is another");
        return 1;
    }
    int status = put_file(file) < 0 ? 2 : 0;
    close(file);
    return status;
}
