/* book_merge BOOK...: the counterpart of `merge` for book files of version 3 whose gap is 30 seconds. It
   trusts that each is the text of a book, and judges no more than the outline of its lines. The files are
   in memory as they are; a walk over all of them at once, by key and first moment, joins rows that are near.
   It reads no logs. */
#include "plain.h"
#include <sys/mman.h>
#include <sys/stat.h>

enum { FIRST_AT = 2, LAST_AT = 27, NAMES_AT = 52, SHORTEST_ROW = 91 };

static const char header[] = "APRSBOOK 3 30\n";

/* The moments, names and digits lie in the text of a file; the names of a row that was joined lie in
   `united`. The bytes of the frame are at an offset in `frames`. */
struct row {
    const byte *first, *last, *names, *receiver, *digits;
    unsigned names_length, receiver_length, frame;
    unsigned short frame_length, information;
};

static struct book {
    struct row *at, *end;
} *books;

static byte *frames;
static size_t frames_used, frames_room;

/* A callsign as a number, by whose order it is put: its letters, then its SSID. */
static unsigned long long call_number(const byte *address) {
    unsigned long long number = 0;
    for (int i = 0; i < 6; i++) number = number << 8 | address[i] >> 1;
    return number << 8 | (address[6] >> 1 & 15);
}

static int by_call(const byte *a, const byte *b) {
    unsigned long long x = call_number(a), y = call_number(b);
    return (x > y) - (x < y);
}

/* By source, destination and information. */
static int by_key(const struct row *a, const struct row *b) {
    const byte *x = frames + a->frame, *y = frames + b->frame;
    int order = by_call(x + 7, y + 7);
    if (!order) order = by_call(x, y);
    if (order) return order;
    return by_bytes(x + a->information, a->frame_length - a->information, y + b->information,
                    b->frame_length - b->information);
}

static int by_key_then_first(const struct row *a, const struct row *b) {
    int order = by_key(a, b);
    return order ? order : memcmp(a->first, b->first, MOMENT_LENGTH);
}

/* By the greatest receptions: their moments, receivers and frames. */
static int by_greatest(const struct row *a, const struct row *b) {
    int order = memcmp(a->last, b->last, MOMENT_LENGTH);
    if (!order) order = by_bytes(a->receiver, a->receiver_length, b->receiver, b->receiver_length);
    return order ? order : by_bytes(frames + a->frame, a->frame_length, frames + b->frame, b->frame_length);
}

static const byte *end_of_name(const byte *at, const byte *end) {
    const byte *comma = memchr(at, ',', (size_t)(end - at));
    return comma ? comma : end;
}

/* Gives a row the names of both, in their order. Two rooms change places, since its names may lie in one. */
static void unite_names(struct row *row, const struct row *other) {
    static byte *united[2];
    static size_t room[2];
    static int turn;
    const byte *a = row->names, *a_end = a + row->names_length;
    const byte *b = other->names, *b_end = b + other->names_length;
    if (!by_bytes(a, row->names_length, b, other->names_length)) return;
    size_t most = (size_t)row->names_length + other->names_length + 1;
    turn ^= 1;
    if (room[turn] < most) united[turn] = sure(realloc(united[turn], room[turn] = 2 * most));
    byte *out = united[turn];
    while (a < a_end || b < b_end) {
        const byte *a_stop = end_of_name(a, a_end), *b_stop = end_of_name(b, b_end);
        size_t a_length = (size_t)(a_stop - a), b_length = (size_t)(b_stop - b);
        int order = a == a_end ? 1 : b == b_end ? -1 : by_bytes(a, a_length, b, b_length);
        size_t length = order <= 0 ? a_length : b_length;
        if (out > united[turn]) *out++ = ',';
        memcpy(out, order <= 0 ? a : b, length);
        out += length;
        if (order <= 0) a = a_stop + (a_stop < a_end);
        if (order >= 0) b = b_stop + (b_stop < b_end);
    }
    row->names = united[turn];
    row->names_length = (unsigned)(out - united[turn]);
}

static void join(struct row *row, const struct row *other) {
    unite_names(row, other);
    if (by_greatest(row, other) >= 0) return;
    row->last = other->last;
    row->receiver = other->receiver;
    row->receiver_length = other->receiver_length;
    row->digits = other->digits;
    row->frame = other->frame;
    row->frame_length = other->frame_length;
    row->information = other->information;
}

static int is_near(const struct row *row, const struct row *next) {
    return !by_key(row, next) &&
           moment(next->first, MOMENT_LENGTH) - moment(row->last, MOMENT_LENGTH) <= GAP;
}

/* Cuts the line from `at` to `end`. Returns 0 where it isn't that of a row. */
static int cut_row(struct row *row, const byte *at, const byte *end) {
    if (end - at < SHORTEST_ROW - 1 || at[0] != 'T') return 0;
    row->first = at + FIRST_AT;
    row->last = at + LAST_AT;
    row->names = at + NAMES_AT;
    const byte *space = memchr(row->names, ' ', (size_t)(end - row->names));
    if (!space) return 0;
    row->names_length = (unsigned)(space - row->names);
    row->receiver = space + 1;
    space = memchr(row->receiver, ' ', (size_t)(end - row->receiver));
    if (!space) return 0;
    row->receiver_length = (unsigned)(space - row->receiver);
    row->digits = space + 1;
    size_t length = (size_t)(end - row->digits) / 2;
    byte *frame = frames + frames_used;
    if (length > LONGEST_FIELD + 2 + LONGEST_INFORMATION || !undo_digits(frame, row->digits, end)) return 0;
    size_t field = address_field(frame, length);
    row->frame = (unsigned)frames_used;
    row->frame_length = (unsigned short)length;
    row->information = (unsigned short)(field + 2);
    frames_used += length;
    return field != 0;
}

/* Cuts the rows of a file, whose text stays in memory. Returns the line at which it has to stop, or 0. */
static size_t read_book(struct book *book, int input) {
    struct stat file;
    size_t number = 1, begins = strlen(header);
    if (fstat(input, &file) || (size_t)file.st_size < begins) return number;
    size_t size = (size_t)file.st_size;
    const byte *at = mmap(0, size, PROT_READ, MAP_PRIVATE, input, 0), *end = at + size, *lf;
    if (at == MAP_FAILED || memcmp(at, header, begins)) return number;
    /* as many rows as the text can have, and as many bytes of frames; what isn't used costs nothing */
    book->at = book->end = sure(malloc((size / SHORTEST_ROW + 1) * sizeof *book->at));
    frames_room = frames_used + size / 2;
    frames = sure(realloc(frames, frames_room));
    for (at += begins; (lf = memchr(at, '\n', (size_t)(end - at))); at = lf + 1) {
        number++;
        if (at[0] == 'E') {
            char last[32];
            size_t length = (size_t)snprintf(last, sizeof last, "END %zu\n", number - 2);
            return lf + 1 == end && !by_bytes(at, (size_t)(end - at), last, length) ? 0 : number;
        }
        if (!cut_row(book->end++, at, lf)) return number;
    }
    return number + 1;
}

/* Writes a text of any length. */
static void put_text(const byte *text, size_t length) {
    while (length) {
        size_t piece = length < MOST_OUTPUT_OF_A_LINE ? length : MOST_OUTPUT_OF_A_LINE;
        make_room();
        put_bytes(text, piece);
        text += piece;
        length -= piece;
    }
}

static void put_row(const struct row *row) {
    make_room();
    put_bytes("T ", 2);
    put_bytes(row->first, MOMENT_LENGTH);
    put(' ');
    put_bytes(row->last, MOMENT_LENGTH);
    put(' ');
    put_text(row->names, row->names_length);
    make_room();
    put(' ');
    put_bytes(row->receiver, row->receiver_length);
    put(' ');
    put_bytes(row->digits, (size_t)row->frame_length * 2);
    put('\n');
}

/* The first of the next rows of all books, or 0 at the end of all. */
static const struct row *next_row(size_t count) {
    struct book *least = 0;
    for (struct book *book = books; book < books + count; book++)
        if (book->at < book->end && (!least || by_key_then_first(book->at, least->at) < 0)) least = book;
    return least ? least->at++ : 0;
}

static void put_book(size_t count) {
    const struct row *next = next_row(count);
    size_t rows = 0;
    put_bytes(header, strlen(header));
    while (next) {
        struct row row = *next;
        while ((next = next_row(count)) && is_near(&row, next)) join(&row, next);
        put_row(&row);
        rows++;
    }
    char last[32];
    make_room();
    put_bytes(last, (size_t)snprintf(last, sizeof last, "END %zu\n", rows));
    flush_output();
}

int main(int words, char **word) {
    size_t count = (size_t)words - 1;
    make_value_of_hex();
    books = sure(calloc(count + 1, sizeof *books));
    for (size_t i = 0; i < count; i++) {
        int input = open(word[i + 1], O_RDONLY);
        size_t line = input < 0 ? 1 : read_book(&books[i], input);
        if (line) {
            fprintf(stderr, "%s: line %zu\n", word[i + 1], line);
            return 1;
        }
        close(input);
    }
    put_book(count);
}
