/* Audits a log, and writes what the program writes of it.
 *
 *     audit SYSTEM STEPS LOG [REQUESTS] */
#include "support.h"

static uint8_t *read_all(const char *path, fttcan_size *len) {
    FILE *file = fopen(path, "rb");
    uint8_t *bytes;
    long size;
    if (file == NULL || fseek(file, 0, SEEK_END) || (size = ftell(file)) < 0 || fseek(file, 0, SEEK_SET)
        || (bytes = malloc((fttcan_size)size + 1)) == NULL || fread(bytes, 1, (fttcan_size)size, file) != (fttcan_size)size)
        exit(99);
    fclose(file);
    *len = (fttcan_size)size;
    return bytes;
}

int main(int count, char **words) {
    uint8_t *files[4];
    fttcan_size lens[4] = {0, 0, 0, 0};
    uint64_t row = 0;
    uint32_t status;
    int place;
    for (place = 0; place < 4; place++)
        files[place] = place + 1 < count ? read_all(words[place + 1], &lens[place]) : calloc(1, 1);
    status = fttcan_audit(files[0], lens[0], files[1], lens[1], files[2], lens[2], files[3], lens[3], &row);
    switch (status) {
    case FTTCAN_OK: puts("yes"); break;
    case FTTCAN_NO: printf("no,row,%" PRIu64 "\n", row); break;
    case FTTCAN_UNFINISHED: puts("no,unfinished"); break;
    default: puts(fttcan_status_name(status)); break;
    }
    WANT((status == FTTCAN_NO) == (row != 0));
    row = 0;
    STATUS(FTTCAN_TEXT, fttcan_audit(files[1], lens[1], files[1], lens[1], files[2], lens[2], files[3], lens[3], &row));
    WANT(row == 0);
    for (place = 0; place < 4; place++)
        free(files[place]);
    return ended("audit");
}
