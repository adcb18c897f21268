/* Completes a sheet through the C entry and prints its line.
 *
 *     complete SHEET [OUT]      SHEET is a sheet's file; OUT, if given, gets the completed sheet
 *
 * prints "minutes N smoothing L segments M", then "first-minute length total" for each segment; or "refused NUMBER PLACE". */
#include <inttypes.h>
#include <stdio.h>

#include <dawhikura.h>

/* No sheet is longer: 32 + 4 * 65,536 + 12 * 65,536. */
enum { MOST = 1048608 };

static uint64_t get(const uint8_t *p, int width)
{
    uint64_t x = 0;
    for (int i = width; i-- > 0;)
        x = x << 8 | p[i];
    return x;
}

static void print_line(const uint8_t *sheet)
{
    uint64_t minutes = get(sheet, 4), segments = get(sheet + 4, 4), first = 1;
    printf("minutes %" PRIu64 " smoothing %" PRIu64 " segments %" PRIu64 "\n", minutes, get(sheet + 16, 8), segments);
    for (const uint8_t *p = sheet + 32 + 4 * minutes; segments-- > 0; p += 12) {
        uint64_t length = get(p, 4);
        printf("%" PRIu64 " %" PRIu64 " %" PRId64 "\n", first, length, (int64_t)get(p + 4, 8));
        first += length;
    }
}

int main(int argc, char **argv)
{
    /* one byte more than a sheet can have: a longer file is refused by its length field */
    static uint8_t sheet[MOST + 1], out[MOST];
    FILE *f = argc == 2 || argc == 3 ? fopen(argv[1], "rb") : NULL;
    if (!f) {
        fprintf(stderr, argc < 2 || argc > 3 ? "usage: complete SHEET [OUT]\n" : "complete: %s cannot be read\n", argv[1]);
        return 2;
    }
    size_t n = fread(sheet, 1, sizeof sheet, f);
    fclose(f);
    int64_t r = dawhikura_sheet_complete(sheet, n, out, sizeof out);
    if (r < 0) {
        printf("refused %" PRId64 " %" PRId64 "\n", -r % 256, -r / 256);
        return 1;
    }
    print_line(out);
    if (argc == 3) {
        FILE *g = fopen(argv[2], "wb");
        if (!g || fwrite(out, 1, (size_t)r, g) != (size_t)r || fclose(g)) {
            fprintf(stderr, "complete: %s cannot be written\n", argv[2]);
            return 2;
        }
    }
    return 0;
}
