/* merge.c: writes the book of logs and books under a gap of 30 seconds.
 * cc -I out examples/clib/merge.c out/libaprsbook.a -o merge && ./merge FILE.. */
#include "aprsbook.h"
#include <stdio.h>
#include <stdlib.h>

static void *get(void *old, size_t size)
{
    void *memory = realloc(old, size);
    if (memory == NULL) {
        fputs("merge: out of memory\n", stderr);
        exit(4);
    }
    return memory;
}

int main(int count, char **paths)
{
    size_t used = 0, room = 1 << 17, *lengths = get(NULL, count * sizeof *lengths);
    uint8_t *inputs = get(NULL, room), *output = NULL, name[16];
    void *memory = NULL;
    for (int k = 1; k < count; k++) { /* the files, one after the other */
        FILE *file = fopen(paths[k], "rb");
        size_t got, before = used;
        while (file != NULL && (got = fread(inputs + used, 1, room - used, file)) > 0) {
            used += got;
            if (room - used < 1 << 16) inputs = get(inputs, room *= 2);
        }
        if (file == NULL || ferror(file)) {
            perror(paths[k]);
            return 1;
        }
        fclose(file);
        lengths[k - 1] = used - before;
    }
    for (size_t size = 8 * used + (4 << 20);; size *= 2) { /* again with more, where it lacked */
        memory = get(memory, size), output = get(output, size);
        struct aprs_region region = {memory, size / 16};
        struct aprs_answer it = aprs_merge(region, 30, inputs, used, lengths, count - 1, output,
            size, name, sizeof name);
        if (it.status == 3 || it.status == 4 || it.written > size) continue;
        if (it.status == 1)
            fprintf(stderr, "%s:%d: %.*s\n", paths[it.input + 1], (int)it.line, (int)it.named,
                (char *)name);
        if (fwrite(output, 1, it.written, stdout) != it.written || fflush(stdout)) return 3;
        return it.status;
    }
}
