/* What the plain C programs share: buffered output, log lines, hexadecimal, KISS pieces, UI frames.
   They judge as docs/formats.md says and name no fault: a faulty line ends a program with its number
   and status 1, and a line that holds no frame is passed over. */
#include <fcntl.h>
#include <stdio.h>
#include <stdlib.h>
#include <string.h>
#include <unistd.h>

typedef unsigned char byte;

enum { FEND = 0xc0, FESC = 0xdb, TFEND = 0xdc, TFESC = 0xdd };
enum { LONGEST_LINE = 8192, LONGEST_PIECE = 1024, LONGEST_NAME = 16 };
/* A moment's text: up to its seconds, as logs may have it, and as it is written. */
enum { TO_SECONDS = 19, SHORT_MOMENT = 20, MOMENT_LENGTH = 24 };
enum { SHORTEST_FIELD = 14, LONGEST_FIELD = 70, LONGEST_INFORMATION = 256 };
enum { INPUT_ROOM = 1 << 16, OUTPUT_ROOM = 1 << 17, MOST_OUTPUT_OF_A_LINE = 1 << 12 };
/* How many milliseconds apart neighbours of one transmission may be. */
enum { GAP = 30000 };

static inline void *sure(void *memory) {
    if (memory) return memory;
    fprintf(stderr, "out of memory\n");
    exit(4);
}

static inline int by_bytes(const void *a, size_t a_length, const void *b, size_t b_length) {
    int order = memcmp(a, b, a_length < b_length ? a_length : b_length);
    return order ? order : (a_length > b_length) - (a_length < b_length);
}

/* Output */

static const char digits_of_hex[] = "0123456789abcdef";
static byte output[OUTPUT_ROOM];
static size_t filled;

static inline void flush_output(void) {
    for (size_t done = 0; done < filled;) {
        ssize_t written = write(1, output + done, filled - done);
        if (written <= 0) _exit(3);
        done += (size_t)written;
    }
    filled = 0;
}

/* Makes room for what one line gives. */
static inline void make_room(void) {
    if (filled > OUTPUT_ROOM - MOST_OUTPUT_OF_A_LINE) flush_output();
}

static inline void put(byte b) { output[filled++] = b; }

static inline void put_bytes(const void *bytes, size_t count) {
    memcpy(output + filled, bytes, count);
    filled += count;
}

static inline void put_hex(byte b) {
    put((byte)digits_of_hex[b >> 4]);
    put((byte)digits_of_hex[b & 15]);
}

/* The hexadecimal column of a frame in a log, and the end of its line. */
static inline void put_frame_column(const byte *frame, size_t length) {
    put_bytes("c000", 4);
    for (size_t i = 0; i < length; i++) {
        if (frame[i] == FEND) put_bytes("dbdc", 4);
        else if (frame[i] == FESC) put_bytes("dbdd", 4);
        else put_hex(frame[i]);
    }
    put_bytes("c0\n", 3);
}

/* Input */

/* The value of a digit; 255 for a byte that is none. */
static byte value_of_hex[256];

static inline void make_value_of_hex(void) {
    memset(value_of_hex, 255, sizeof value_of_hex);
    for (int i = 0; i < 10; i++) value_of_hex['0' + i] = (byte)i;
    for (int i = 0; i < 6; i++) value_of_hex['a' + i] = value_of_hex['A' + i] = (byte)(10 + i);
}

/* Calls `take` with each line of `input`, its LF left out; `take` returns 0 for a faulty line. */
static inline void each_line(int input, const char *place,
                             int (*take)(const byte *, const byte *)) {
    static byte room[INPUT_ROOM];
    unsigned long number = 0;
    size_t have = 0;
    ssize_t got;
    while ((got = read(input, room + have, INPUT_ROOM - have)) > 0) {
        const byte *at = room, *lf;
        const byte *end = room + have + got;
        while ((lf = memchr(at, '\n', (size_t)(end - at)))) {
            number++;
            if (lf - at > LONGEST_LINE || !take(at, lf)) goto faulty;
            at = lf + 1;
        }
        have = (size_t)(end - at);
        if (have > LONGEST_LINE) break;
        memmove(room, at, have);
    }
    if (have == 0 && got == 0) return;
    number++;
faulty:
    flush_output();
    fprintf(stderr, "%s: line %lu\n", place, number);
    exit(1);
}

/* A number of `count` decimal digits, or -1. */
static inline int decimal(const byte *text, int count) {
    int number = 0;
    while (count--) {
        unsigned digit = *text++ - (unsigned)'0';
        if (digit > 9) return -1;
        number = number * 10 + (int)digit;
    }
    return number;
}

/* The milliseconds since 1970-01-01T00:00:00Z of a moment's text, or -1. */
static inline long long moment(const byte *text, size_t length) {
    static const int days_of[] = {31, 28, 31, 30, 31, 30, 31, 31, 30, 31, 30, 31};
    static const int days_before[] = {0, 31, 59, 90, 120, 151, 181, 212, 243, 273, 304, 334};
    if ((length != SHORT_MOMENT && length != MOMENT_LENGTH) || text[4] != '-' || text[7] != '-' ||
        text[10] != 'T' || text[13] != ':' || text[16] != ':' || text[length - 1] != 'Z' ||
        (length == MOMENT_LENGTH && text[TO_SECONDS] != '.'))
        return -1;
    int year = decimal(text, 4), month = decimal(text + 5, 2), day = decimal(text + 8, 2);
    int hour = decimal(text + 11, 2), minute = decimal(text + 14, 2);
    int second = decimal(text + 17, 2);
    int milli = length == MOMENT_LENGTH ? decimal(text + TO_SECONDS + 1, 3) : 0;
    int leap = year % 4 == 0;
    if (year < 1970 || year > 2099 || month < 1 || month > 12 || day < 1 || hour < 0 || hour > 23 ||
        minute < 0 || minute > 59 || second < 0 || second > 59 || milli < 0 ||
        day > days_of[month - 1] + (month == 2 && leap))
        return -1;
    long long days = (year - 1970) * 365LL + (year - 1969) / 4 + days_before[month - 1] +
                     (month > 2 && leap) + day - 1;
    return (((days * 24 + hour) * 60 + minute) * 60 + second) * 1000 + milli;
}

/* Copies a moment's text of that length, with `.000` where it has no milliseconds. */
static inline void write_moment(void *to, const void *text, size_t length) {
    memcpy(to, text, TO_SECONDS);
    memcpy((byte *)to + TO_SECONDS,
           length == MOMENT_LENGTH ? (const byte *)text + TO_SECONDS : (const byte *)".000Z",
           MOMENT_LENGTH - TO_SECONDS);
}

static inline int is_name(const byte *text, size_t length) {
    if (length < 1 || length > LONGEST_NAME) return 0;
    for (size_t i = 0; i < length; i++) {
        byte c = text[i], small = c | 0x20;
        int letter = small >= 'a' && small <= 'z', digit = c >= '0' && c <= '9';
        if (!letter && !digit && c != '-' && c != '_') return 0;
    }
    return 1;
}

/* The parts of a log line: where the name and the digits begin, and the bytes that the digits stand for. */
struct line {
    long long millis;
    size_t moment_length;
    const byte *name, *digits;
    size_t count;
    byte bytes[LONGEST_LINE / 2];
};

/* Undoes the digits from `at` to `end` into half as many bytes. Returns 0 where they are no hexadecimal. */
static inline int undo_digits(byte *out, const byte *at, const byte *end) {
    unsigned seen = 0;
    for (; at + 1 < end; at += 2) {
        unsigned high = value_of_hex[at[0]], low = value_of_hex[at[1]];
        seen |= high | low;
        *out++ = (byte)(high << 4 | low);
    }
    return at == end && seen < 16;
}

static inline int undo_hex(struct line *line, const byte *at, const byte *end) {
    line->count = (size_t)(end - at) / 2;
    return undo_digits(line->bytes, at, end);
}

/* Cuts the line from `at` to `end`. Returns 0 where it is faulty. */
static inline int cut_line(struct line *line, const byte *at, const byte *end) {
    const byte *space = memchr(at, ' ', (size_t)(end - at));
    if (!space || (line->millis = moment(at, (size_t)(space - at))) < 0) return 0;
    line->moment_length = (size_t)(space - at);
    line->name = space + 1;
    space = memchr(line->name, ' ', (size_t)(end - line->name));
    if (!space || !is_name(line->name, (size_t)(space - line->name))) return 0;
    line->digits = space + 1;
    return undo_hex(line, line->digits, end);
}

/* Frames */

/* The one frame of a KISS stream, its type byte and escapes undone, or 0 bytes where there is none.
   `piece` has room for as many bytes as the stream. */
static inline size_t only_piece(const byte *stream, size_t count, byte *piece) {
    size_t at = 0, length = 0;
    if (count == 0 || stream[count - 1] != FEND) return 0;
    while (at < count && stream[at] == FEND) at++;
    for (; at < count && stream[at] != FEND; at++) {
        byte b = stream[at];
        if (b == FESC) {
            b = stream[++at];
            if (b != TFEND && b != TFESC) return 0;
            b = b == TFEND ? FEND : FESC;
        }
        piece[length++] = b;
    }
    for (; at < count; at++)
        if (stream[at] != FEND) return 0;
    return length <= LONGEST_PIECE && length > 0 && !(piece[0] & 15) ? length : 0;
}

/* The length of the address field of a UI frame whose callsigns aren't judged yet, or 0. */
static inline size_t address_field(const byte *frame, size_t length) {
    size_t last = 0;
    while (last < length && !(frame[last] & 1)) last++;
    size_t field = last + 1;
    if (last >= length || field % 7 || field < SHORTEST_FIELD || field > LONGEST_FIELD) return 0;
    if (length < field + 3 || frame[field] != 0x03 || frame[field + 1] != 0xf0) return 0;
    return length - field - 2 <= LONGEST_INFORMATION ? field : 0;
}

/* How many letters and digits a callsign has; 0 where it is none. */
static inline int letters(const byte *address) {
    int count = 0;
    while (count < 6) {
        byte c = address[count] >> 1;
        if (!((c >= 'A' && c <= 'Z') || (c >= '0' && c <= '9'))) break;
        count++;
    }
    for (int i = count; i < 6; i++)
        if (address[i] >> 1 != ' ') return 0;
    return count;
}

/* The length of the address field of a UI frame, or 0. */
static inline size_t sound_field(const byte *frame, size_t length) {
    size_t field = address_field(frame, length);
    for (size_t at = 0; at < field; at += 7)
        if (!letters(frame + at)) return 0;
    return field;
}
