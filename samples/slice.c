// slice FILE WIDTH HEIGHT DEPTH AXIS INDEX: prints one slice of a block of bytes as a portable graymap.
// The file has DEPTH layers of HEIGHT rows of WIDTH bytes. AXIS is x, y or z, and INDEX says which slice
// across it. Where each byte of the slice stands is known before the first is read.
#include "output.h"
#include <fcntl.h>

enum { MOST = 1 << 22 };

struct extent {
    unsigned long width, height, depth;
};

static unsigned char cells[MOST];

static unsigned long number_of(const char *word)
{
    unsigned long number = 0;
    for (; *word >= '0' && *word <= '9' && number < 1000000000; word++)
        number = 10 * number + (unsigned long)(*word - '0');
    return *word == 0 ? number : 0;
}

static int read_at(int file, unsigned long offset, unsigned char *into, unsigned long count)
{
    if (lseek(file, (off_t)offset, SEEK_SET) < 0)
        return -1;
    while (count > 0) {
        ssize_t got = read(file, into, count);
        if (got <= 0)
            return -1;
        into += got;
        count -= (unsigned long)got;
    }
    return 0;
}

// The rows of a slice, each of which stands in the file in one piece.
static int read_rows(int file, unsigned long first, unsigned long between, unsigned long rows, unsigned long bytes)
{
    for (unsigned long row = 0; row < rows; row++) {
        if (read_at(file, first + row * between, cells + row * bytes, bytes) < 0)
            return -1;
    }
    return 0;
}

static int read_slice(int file, struct extent all, char axis, unsigned long index, struct extent *slice)
{
    unsigned long layer = all.width * all.height;
    switch (axis) {
    case 'x':
        *slice = (struct extent){all.height, all.depth, 1};
        return read_rows(file, index, all.width, all.height * all.depth, 1);
    case 'y':
        *slice = (struct extent){all.width, all.depth, 1};
        return read_rows(file, index * all.width, layer, all.depth, all.width);
    default:
        *slice = (struct extent){all.width, all.height, 1};
        return read_rows(file, index * layer, all.width, all.height, all.width);
    }
}

static void print_map(struct extent slice)
{
    put_text("P5\n");
    put_number(slice.width);
    put_text(" ");
    put_number(slice.height);
    put_text("\n255\n");
    put_bytes((const char *)cells, slice.width * slice.height);
    flush();
}

static int is_known(struct extent all, char axis, unsigned long index)
{
    unsigned long most = axis == 'x' ? all.width : axis == 'y' ? all.height : axis == 'z' ? all.depth : 0;
    int is_small = all.width < 65536 && all.height < 65536 && all.depth < 65536;
    return is_small && index < most && all.width * all.height <= MOST && all.height * all.depth <= MOST
        && all.width * all.depth <= MOST;
}

int main(int count, char **words)
{
    struct extent all, slice;
    if (count != 7)
        return usage("slice FILE WIDTH HEIGHT DEPTH AXIS INDEX");
    all = (struct extent){number_of(words[2]), number_of(words[3]), number_of(words[4])};
    if (!is_known(all, words[5][0], number_of(words[6])))
        return usage("slice FILE WIDTH HEIGHT DEPTH AXIS INDEX");
    int file = open(words[1], O_RDONLY);
    if (file < 0)
        return complain(words[1], "cannot open");
    if (read_slice(file, all, words[5][0], number_of(words[6]), &slice) < 0)
        return complain(words[1], "too short");
    close(file);
    print_map(slice);
    return 0;
}
