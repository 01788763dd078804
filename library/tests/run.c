/* Carries out the words of a call over files that are read first, and ends with its status.
 *
 *     run ROOM WORD.. -- [FILE..]
 *
 * ROOM is how many bytes the output may have. In the words the files are named 0, 1, 2 and 3. */
#include "support.h"

static uint8_t *read_all(const char *path, fttcan_size *len) {
    FILE *file = fopen(path, "rb");
    uint8_t *bytes;
    long size;
    if (file == NULL || fseek(file, 0, SEEK_END) || (size = ftell(file)) < 0 || fseek(file, 0, SEEK_SET)
        || (bytes = malloc((fttcan_size)size + 1)) == NULL || fread(bytes, 1, (fttcan_size)size, file) != (fttcan_size)size)
        exit(99);
    fclose(file);
    *len = (fttcan_size)size;
    return bytes;
}

int main(int count, char **words) {
    static uint8_t err[1 << 16];
    uint8_t joined[4096], *files[4], *out;
    fttcan_size joined_len = 0, lens[4] = {0, 0, 0, 0}, out_count = 0, err_count = 0;
    const fttcan_size room = count > 1 ? strtoull(words[1], NULL, 10) : 0;
    int at = 2, place;
    uint32_t status;
    for (; at < count && strcmp(words[at], "--"); at++) {
        const fttcan_size len = strlen(words[at]);
        if (joined_len + len + 1 > sizeof joined)
            return 99;
        if (at > 2)
            joined[joined_len++] = 0;
        memcpy(joined + joined_len, words[at], len);
        joined_len += len;
    }
    for (place = 0, at++; place < 4; place++, at++)
        files[place] = at < count ? read_all(words[at], &lens[place]) : calloc(1, 1);
    out = malloc(room + 1);
    if (out == NULL)
        return 99;
    status = fttcan_run(joined, joined_len, files[0], lens[0], files[1], lens[1], files[2], lens[2], files[3], lens[3], out,
                        room, &out_count, err, sizeof err, &err_count);
    if (out_count > room || err_count > sizeof err)
        return 99;
    fwrite(out, 1, out_count, stdout);
    fwrite(err, 1, err_count, stderr);
    for (place = 0; place < 4; place++)
        free(files[place]);
    free(out);
    return (int)status;
}
