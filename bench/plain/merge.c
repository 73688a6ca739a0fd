/* merge LOG...: the counterpart of `merge` for logs, which sorts all receptions and writes the book.
   It reads no book files. */
#include "plain.h"

enum { BLOCK = 1 << 24 };

/* The key is the bytes of source, destination (six characters and the SSID each) and information. */
struct reception {
    const byte *key, *frame;
    unsigned key_length, frame_length;
    long long millis;
    char moment[MOMENT_LENGTH], name[LONGEST_NAME + 1];
};

static struct reception *receptions;
static size_t count, room;

static byte *bytes_of(size_t length) {
    static byte *block;
    static size_t left;
    if (length > left) block = sure(malloc(left = BLOCK));
    byte *given = block;
    block += length;
    left -= length;
    return given;
}

static int by_key(const struct reception *a, const struct reception *b) {
    return by_bytes(a->key, a->key_length, b->key, b->key_length);
}

static int by_key_then_reception(const void *first, const void *second) {
    const struct reception *a = first, *b = second;
    int order = by_key(a, b);
    if (!order) order = (a->millis > b->millis) - (a->millis < b->millis);
    if (!order) order = strcmp(a->name, b->name);
    return order ? order : by_bytes(a->frame, a->frame_length, b->frame, b->frame_length);
}

static int by_name(const void *a, const void *b) {
    return strcmp(*(char *const *)a, *(char *const *)b);
}

static byte *spell_call(byte *at, const byte *address) {
    for (int i = 0; i < 6; i++) *at++ = address[i] >> 1;
    *at++ = address[6] >> 1 & 15;
    return at;
}

static void keep(const struct line *line, const byte *at, const byte *frame, unsigned length,
                 unsigned field) {
    if (count == room) {
        room = room ? room * 2 : 4096;
        receptions = sure(realloc(receptions, room * sizeof *receptions));
    }
    struct reception *kept = receptions + count++;
    unsigned information = length - field - 2;
    byte *bytes = bytes_of(14 + information + length);
    kept->key = bytes;
    kept->key_length = 14 + information;
    bytes = spell_call(spell_call(bytes, frame + 7), frame);
    memcpy(bytes, frame + field + 2, information);
    kept->frame = memcpy(bytes + information, frame, length);
    kept->frame_length = length;
    kept->millis = line->millis;
    write_moment(kept->moment, at, line->moment_length);
    size_t name_length = (size_t)(line->digits - 1 - line->name);
    memcpy(kept->name, line->name, name_length);
    kept->name[name_length] = 0;
}

static int take_line(const byte *at, const byte *end) {
    static struct line line;
    static byte piece[LONGEST_LINE];
    if (!cut_line(&line, at, end)) return 0;
    size_t length = only_piece(line.bytes, line.count, piece);
    size_t field = length ? sound_field(piece + 1, length - 1) : 0;
    if (field) keep(&line, at, piece + 1, (unsigned)length - 1, (unsigned)field);
    return 1;
}

/* The row of the receptions from `first` to before `end`. */
static void print_row(const struct reception *first, const struct reception *end,
                      const char **names) {
    size_t named = 0;
    const struct reception *greatest = end - 1;
    for (const struct reception *r = first; r < end; r++) {
        size_t i = 0;
        while (i < named && strcmp(names[i], r->name)) i++;
        if (i == named) names[named++] = r->name;
    }
    qsort(names, named, sizeof *names, by_name);
    printf("T %.24s %.24s ", first->moment, greatest->moment);
    for (size_t i = 0; i < named; i++) printf("%s%s", i ? "," : "", names[i]);
    printf(" %s ", greatest->name);
    for (unsigned i = 0; i < greatest->frame_length; i++) {
        putchar(digits_of_hex[greatest->frame[i] >> 4]);
        putchar(digits_of_hex[greatest->frame[i] & 15]);
    }
    putchar('\n');
}

static void print_book(void) {
    const char **names = sure(malloc((count + 1) * sizeof *names));
    const struct reception *end = receptions + count;
    size_t rows = 0;
    puts("APRSBOOK 3 30");
    for (const struct reception *first = receptions, *next; first < end; first = next) {
        next = first + 1;
        while (next < end && !by_key(next, first) && next->millis - next[-1].millis <= GAP)
            next++;
        print_row(first, next, names);
        rows++;
    }
    printf("END %zu\n", rows);
}

int main(int words, char **word) {
    static char buffer[INPUT_ROOM];
    make_value_of_hex();
    for (int i = 1; i < words; i++) {
        int input = open(word[i], O_RDONLY);
        if (input < 0) {
            fprintf(stderr, "%s: cannot open\n", word[i]);
            return 1;
        }
        each_line(input, word[i], take_line);
        close(input);
    }
    if (count) qsort(receptions, count, sizeof *receptions, by_key_then_reception);
    setvbuf(stdout, buffer, _IOFBF, sizeof buffer);
    print_book();
    return fflush(stdout) ? 3 : 0;
}
