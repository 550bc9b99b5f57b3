// Standard output, gathered into pieces of 4,096 bytes.
#include <stddef.h>
#include <string.h>
#include <unistd.h>

static char gathered[4096];
static size_t gathered_bytes;

static int write_whole(int file, const char *bytes, size_t count)
{
    while (count > 0) {
        ssize_t taken = write(file, bytes, count);
        if (taken <= 0)
            return -1;
        bytes += taken;
        count -= (size_t)taken;
    }
    return 0;
}

static void flush(void)
{
    write_whole(1, gathered, gathered_bytes);
    gathered_bytes = 0;
}

static inline void put_bytes(const char *bytes, size_t count)
{
    while (count > 0) {
        size_t room = sizeof gathered - gathered_bytes;
        size_t now = count < room ? count : room;
        memcpy(gathered + gathered_bytes, bytes, now);
        gathered_bytes += now;
        bytes += now;
        count -= now;
        if (gathered_bytes == sizeof gathered)
            flush();
    }
}

static inline void put_text(const char *text)
{
    put_bytes(text, strlen(text));
}

static inline void put_number(unsigned long number)
{
    char digits[20];
    size_t at = sizeof digits;
    do {
        digits[--at] = (char)('0' + number % 10);
        number /= 10;
    } while (number > 0);
    put_bytes(digits + at, sizeof digits - at);
}

// Says of a file what is wrong with it, and answers the status for that.
static inline int complain(const char *name, const char *what)
{
    flush();
    write_whole(2, name, strlen(name));
    write_whole(2, ": ", 2);
    write_whole(2, what, strlen(what));
    write_whole(2, "\n", 1);
    return 2;
}

static inline int usage(const char *words)
{
    return complain("usage", words);
}
