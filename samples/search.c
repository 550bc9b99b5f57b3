// search TEXT FILE..: prints each line that holds TEXT, after the file's name and a colon.
// It ends with 0 where a line was found, else with 1, and with 2 where a file can't be opened.
#include "output.h"
#include <fcntl.h>

static char window[65536];

static int holds(const char *line, size_t length, const char *text, size_t wanted)
{
    for (size_t at = 0; at + wanted <= length; at++) {
        if (line[at] == text[0] && memcmp(line + at, text, wanted) == 0)
            return 1;
    }
    return 0;
}

static int print_if(const char *name, const char *line, size_t length, const char *text)
{
    if (!holds(line, length, text, strlen(text)))
        return 0;
    put_text(name);
    put_text(":");
    put_bytes(line, length);
    put_text("\n");
    return 1;
}

// A line longer than the window is searched in pieces.
static int search(const char *name, int file, const char *text)
{
    size_t kept = 0;
    int found = 0;
    for (;;) {
        ssize_t more = read(file, window + kept, sizeof window - kept);
        if (more <= 0)
            break;
        size_t end = kept + (size_t)more;
        char *line = window;
        char *stop;
        while ((stop = memchr(line, '\n', end - (size_t)(line - window))) != NULL) {
            found |= print_if(name, line, (size_t)(stop - line), text);
            line = stop + 1;
        }
        kept = end - (size_t)(line - window);
        if (kept == sizeof window) {
            found |= print_if(name, window, kept, text);
            kept = 0;
        }
        memmove(window, line, kept);
    }
    if (kept > 0)
        found |= print_if(name, window, kept, text);
    return found;
}

int main(int count, char **words)
{
    int found = 0;
    int status = 0;
    if (count < 3 || words[1][0] == 0)
        return usage("search TEXT FILE..");
    for (int i = 2; i < count; i++) {
        int file = open(words[i], O_RDONLY);
        if (file < 0) {
            status = complain(words[i], "cannot open");
            continue;
        }
        found |= search(words[i], file, words[1]);
        close(file);
    }
    flush();
    return status != 0 ? status : !found;
}
