/* log < LOG: the counterpart of `convert log`, log lines to log lines in one spelling in one pass. */
#include "plain.h"

static int take_line(const byte *at, const byte *end) {
    static struct line line;
    static byte piece[LONGEST_LINE];
    if (!cut_line(&line, at, end)) return 0;
    size_t length = only_piece(line.bytes, line.count, piece);
    if (!length || !sound_field(piece + 1, length - 1)) return 1;
    make_room();
    write_moment(output + filled, at, line.moment_length);
    filled += MOMENT_LENGTH;
    put_bytes(at + line.moment_length, (size_t)(line.digits - at) - line.moment_length);
    put_frame_column(piece + 1, length - 1);
    return 1;
}

int main(void) {
    make_value_of_hex();
    each_line(0, "standard input", take_line);
    flush_output();
}
