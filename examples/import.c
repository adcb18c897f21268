/* Makes a sheet of a table in CSV, through the C entries; no line is filed.
 *
 *     import TABLE SMOOTHING SHEET      TABLE is the table's file, SHEET gets the sheet
 *
 * prints "minutes N"; or "refused NUMBER PLACE", or "too long" for more bytes than any table has. */
#include <inttypes.h>
#include <stdio.h>
#include <stdlib.h>

#include <dawhikura.h>

/* No table is longer than 17 bytes a minute, and no sheet without a line longer than 32 bytes and 4 a minute. */
enum { MINUTES = 65536, TEXT = 17 * MINUTES, SHEET = 32 + 4 * MINUTES };

static int refused(int64_t r)
{
    printf("refused %" PRId64 " %" PRId64 "\n", -r % 256, -r / 256);
    return 1;
}

static int save(const char *path, const uint8_t *sheet, size_t size)
{
    FILE *f = fopen(path, "wb");
    if (!f || fwrite(sheet, 1, size, f) != size || fclose(f)) {
        fprintf(stderr, "import: %s cannot be written\n", path);
        return 0;
    }
    return 1;
}

int main(int argc, char **argv)
{
    static uint8_t text[TEXT + 1], sheet[SHEET];
    static int32_t samples[MINUTES];
    char *rest = "";
    uint64_t smoothing = argc == 4 ? strtoull(argv[2], &rest, 10) : 0;
    if (argc != 4 || rest == argv[2] || *rest) {
        fprintf(stderr, "usage: import TABLE SMOOTHING SHEET\n");
        return 2;
    }
    FILE *f = fopen(argv[1], "rb");
    if (!f) {
        fprintf(stderr, "import: %s cannot be read\n", argv[1]);
        return 2;
    }
    size_t size = fread(text, 1, sizeof text, f);
    fclose(f);
    if (size > TEXT) {
        printf("too long\n");
        return 1;
    }
    int64_t n = dawhikura_csv_read(text, size, samples, MINUTES);
    if (n < 0)
        return refused(n);
    int64_t r = dawhikura_sheet_write(samples, (size_t)n, smoothing, NULL, 0, NULL, 0, sheet, sizeof sheet);
    if (r < 0)
        return refused(r);
    if (!save(argv[3], sheet, (size_t)r))
        return 2;
    printf("minutes %" PRId64 "\n", n);
    return 0;
}
