// count FILE..: prints the lines, words and bytes of each file, and of all of them.
#include "output.h"
#include <fcntl.h>

struct counts {
    unsigned long lines, words, bytes;
};

static char piece[16384];

static int is_space(char byte)
{
    return byte == ' ' || (byte >= '\t' && byte <= '\r');
}

static struct counts count_file(int file)
{
    struct counts sum = {0, 0, 0};
    int in_word = 0;
    ssize_t got;
    while ((got = read(file, piece, sizeof piece)) > 0) {
        sum.bytes += (unsigned long)got;
        for (ssize_t i = 0; i < got; i++) {
            int space = is_space(piece[i]);
            sum.lines += piece[i] == '\n';
            sum.words += in_word && space;
            in_word = !space;
        }
    }
    sum.words += (unsigned long)in_word;
    return sum;
}

static void print_counts(struct counts sum, const char *name)
{
    put_number(sum.lines);
    put_text(" ");
    put_number(sum.words);
    put_text(" ");
    put_number(sum.bytes);
    put_text(" ");
    put_text(name);
    put_text("\n");
}

int main(int count, char **words)
{
    struct counts all = {0, 0, 0};
    int status = 0;
    for (int i = 1; i < count; i++) {
        int file = open(words[i], O_RDONLY);
        if (file < 0) {
            status = complain(words[i], "cannot open");
            continue;
        }
        struct counts sum = count_file(file);
        close(file);
        print_counts(sum, words[i]);
        all.lines += sum.lines;
        all.words += sum.words;
        all.bytes += sum.bytes;
    }
    print_counts(all, "total");
    flush();
    return status;
}
