/* capture NAME MOMENT < STREAM: the counterpart of `convert capture`, a KISS stream to log lines. */
#include "plain.h"

static char head[MOMENT_LENGTH + LONGEST_NAME + 3];

static byte piece[LONGEST_PIECE];

/* Writes the line of a piece of so many bytes, where it is a data frame that is a UI frame. */
static void put_piece(size_t length) {
    if (length == 0 || (piece[0] & 15) || !sound_field(piece + 1, length - 1)) return;
    make_room();
    put_bytes(head, strlen(head));
    put_frame_column(piece + 1, length - 1);
}

/* Cuts the stream into pieces and undoes their escapes; a piece that is refused is passed over. */
static void capture_stream(void) {
    static byte room[INPUT_ROOM];
    size_t length = 0;
    int escaped = 0, refused = 0;
    ssize_t got;
    while ((got = read(0, room, sizeof room)) > 0)
        for (ssize_t i = 0; i < got; i++) {
            byte b = room[i];
            if (b == FEND) {
                if (!refused && !escaped) put_piece(length);
                length = 0;
                escaped = refused = 0;
                continue;
            }
            if (escaped) {
                if (b != TFEND && b != TFESC) refused = 1;
                b = b == TFEND ? FEND : FESC;
                escaped = 0;
            } else if (b == FESC) {
                escaped = 1;
                continue;
            }
            if (length < LONGEST_PIECE) piece[length++] = b;
            else refused = 1;
        }
}

int main(int count, char **words) {
    char heard[MOMENT_LENGTH + 1] = "";
    if (count != 3 || !is_name((byte *)words[1], strlen(words[1])) ||
        moment((byte *)words[2], strlen(words[2])) < 0) {
        fprintf(stderr, "usage: capture NAME MOMENT < STREAM\n");
        return 2;
    }
    write_moment(heard, words[2], strlen(words[2]));
    snprintf(head, sizeof head, "%s %s ", heard, words[1]);
    capture_stream();
    flush_output();
}
