// sections FILE..: reads object files as a linker does, and prints for each the bytes of its code, of its
// data and of what is zero, and how many symbols it defines and wants.
// Each place in a file is known only from what was read before it: the header tells of the section table,
// that of the symbols.
#include "output.h"
#include <fcntl.h>
#include <stdint.h>

enum { SYMTAB = 2, NOBITS = 8, WRITE = 1, ALLOC = 2, MOST_SECTIONS = 4096 };

struct header {
    unsigned char ident[16];
    uint16_t type, machine;
    uint32_t version;
    uint64_t entry, segments_at, sections_at;
    uint32_t flags;
    uint16_t size, segment_size, segment_count, section_size, section_count, names;
};

struct section {
    uint32_t name, type;
    uint64_t flags, address, offset, size;
    uint32_t link, info;
    uint64_t align, entry_size;
};

struct symbol {
    uint32_t name;
    unsigned char info, other;
    uint16_t section;
    uint64_t value, size;
};

struct totals {
    unsigned long code, data, zero, defined, wanted;
};

static struct section table[MOST_SECTIONS];
static struct symbol symbols[1024];

static int read_at(int file, uint64_t offset, void *into, size_t count)
{
    char *to = into;
    if (lseek(file, (off_t)offset, SEEK_SET) < 0)
        return -1;
    while (count > 0) {
        ssize_t got = read(file, to, count);
        if (got <= 0)
            return -1;
        to += got;
        count -= (size_t)got;
    }
    return 0;
}

static int count_symbols(int file, const struct section *of, struct totals *sum)
{
    uint64_t left = of->size / sizeof(struct symbol);
    uint64_t offset = of->offset;
    while (left > 0) {
        size_t now = left < 1024 ? (size_t)left : 1024;
        if (read_at(file, offset, symbols, now * sizeof(struct symbol)) < 0)
            return -1;
        for (size_t i = 0; i < now; i++) {
            int is_named = symbols[i].name != 0 && symbols[i].info >> 4 != 0;
            sum->defined += is_named && symbols[i].section != 0;
            sum->wanted += is_named && symbols[i].section == 0;
        }
        offset += now * sizeof(struct symbol);
        left -= now;
    }
    return 0;
}

static void count_bytes(const struct section *of, struct totals *sum)
{
    if (!(of->flags & ALLOC))
        return;
    if (of->type == NOBITS)
        sum->zero += of->size;
    else if (of->flags & WRITE)
        sum->data += of->size;
    else
        sum->code += of->size;
}

static int is_object(const struct header *of)
{
    return memcmp(of->ident, "\177ELF\2\1", 6) == 0 && of->section_size == sizeof(struct section)
        && of->section_count <= MOST_SECTIONS;
}

static int read_object(int file, struct totals *sum)
{
    struct header head;
    if (read_at(file, 0, &head, sizeof head) < 0 || !is_object(&head))
        return -1;
    if (read_at(file, head.sections_at, table, head.section_count * sizeof(struct section)) < 0)
        return -1;
    for (size_t i = 0; i < head.section_count; i++) {
        count_bytes(&table[i], sum);
        if (table[i].type == SYMTAB && count_symbols(file, &table[i], sum) < 0)
            return -1;
    }
    return 0;
}

static void print_totals(struct totals sum, const char *name)
{
    const unsigned long numbers[5] = {sum.code, sum.data, sum.zero, sum.defined, sum.wanted};
    for (int i = 0; i < 5; i++) {
        put_number(numbers[i]);
        put_text(" ");
    }
    put_text(name);
    put_text("\n");
}

int main(int count, char **words)
{
    int status = 0;
    for (int i = 1; i < count; i++) {
        struct totals sum = {0, 0, 0, 0, 0};
        int file = open(words[i], O_RDONLY);
        if (file < 0) {
            status = complain(words[i], "cannot open");
            continue;
        }
        if (read_object(file, &sum) < 0)
            status = complain(words[i], "no object file");
        else
            print_totals(sum, words[i]);
        close(file);
    }
    flush();
    return status;
}
