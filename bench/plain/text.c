/* text < LOG: the counterpart of `convert text`, log lines to monitor text in one pass. */
#include "plain.h"

/* Writes a callsign while it judges it. Returns 0 where it is none. */
static int put_call(const byte *address) {
    int count = letters(address);
    for (int i = 0; i < count; i++) put(address[i] >> 1);
    int ssid = address[6] >> 1 & 15;
    if (ssid) put('-');
    if (ssid > 9) put('1');
    if (ssid) put((byte)('0' + ssid % 10));
    return count;
}

static void put_shown(byte b) {
    if (b >= 0x20 && b <= 0x7e && b != '\\') {
        put(b);
    } else {
        put_bytes("\\x", 2);
        put_hex(b);
    }
}

/* Writes the frame's line, or nothing where it has a callsign that is none. */
static void put_frame(const byte *frame, size_t length, size_t field) {
    size_t before = filled;
    int sound = put_call(frame + 7);
    put('>');
    sound = sound && put_call(frame);
    for (size_t at = 14; sound && at < field; at += 7) {
        put(',');
        sound = put_call(frame + at);
        if (frame[at + 6] & 0x80) put('*');
    }
    if (!sound) {
        filled = before;
        return;
    }
    put(':');
    for (size_t at = field + 2; at < length; at++) put_shown(frame[at]);
    put('\n');
}

static int take_line(const byte *at, const byte *end) {
    static struct line line;
    static byte piece[LONGEST_LINE];
    if (!cut_line(&line, at, end)) return 0;
    size_t length = only_piece(line.bytes, line.count, piece);
    if (!length) return 1;
    size_t field = address_field(piece + 1, length - 1);
    if (!field) return 1;
    make_room();
    put_frame(piece + 1, length - 1, field);
    return 1;
}

int main(void) {
    make_value_of_hex();
    each_line(0, "standard input", take_line);
    flush_output();
}
