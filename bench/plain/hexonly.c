/* hexonly < LOG: undoes the hexadecimal of each line and does nothing else with it, which no reader of
   logs can leave out. Prints the lines, the bytes and how many lines aren't hexadecimal. */
#include "plain.h"

static unsigned long lines, bytes, faulty;

/* The digits are what follows the second space. */
static int count_line(const byte *at, const byte *end) {
    static struct line line;
    for (int spaces = 0; spaces < 2; spaces++) {
        const byte *space = memchr(at, ' ', (size_t)(end - at));
        if (space) at = space + 1;
    }
    faulty += !undo_hex(&line, at, end);
    bytes += line.count;
    lines++;
    return 1;
}

int main(void) {
    make_value_of_hex();
    each_line(0, "standard input", count_line);
    printf("%lu lines, %lu bytes, %lu faulty\n", lines, bytes, faulty);
}
