/* embed FILE.wmf: plays a file on a packed, a byte and a planar picture of 576 x 400 cells, says what each call told, sees that the
 * lowest bits agree, and writes the packed picture as a PBM to standard output. */
#include "../include/dierwolp.h"

#include <stdio.h>
#include <stdlib.h>
#include <string.h>

enum { WIDTH = 576, HEIGHT = 400, ROW = WIDTH / 8, PLANE = ROW * HEIGHT, LONGEST = 65537 };

static uint8_t file[LONGEST], packed[PLANE], bytes[WIDTH * HEIGHT], planes[4 * PLANE];

static void tell(const char *layout, uint32_t number, const struct dierwolp_report *r)
{
    fprintf(stderr, "%s: %u at byte %llu; taken %llu, refused %llu, passed over %llu\n", layout, number,
            (unsigned long long)r->stop.place, (unsigned long long)r->taken, (unsigned long long)r->refused,
            (unsigned long long)r->passed_over);
    if (r->first.number)
        fprintf(stderr, "%s: first refused: %u at byte %llu\n", layout, r->first.number, (unsigned long long)r->first.place);
}

int main(int count, char **words)
{
    struct dierwolp_report r;
    FILE *in = count == 2 ? fopen(words[1], "rb") : NULL;
    if (!in) {
        fprintf(stderr, "usage: embed FILE.wmf > FILE.pbm\n");
        return 2;
    }
    size_t length = fread(file, 1, sizeof file, in);
    fclose(in);
    if (dierwolp_check(file, length, &r)) {
        tell("check", r.stop.number, &r);
        return 1;
    }
    tell("packed", dierwolp_play_packed(file, length, packed, sizeof packed, WIDTH, HEIGHT, &r), &r);
    tell("bytes", dierwolp_play_bytes(file, length, bytes, sizeof bytes, WIDTH, HEIGHT, &r), &r);
    tell("planes", dierwolp_play_planes(file, length, planes, sizeof planes, WIDTH, HEIGHT, &r), &r);
    if (memcmp(packed, planes, sizeof packed)) {
        fprintf(stderr, "plane 0 is not the packed picture\n");
        return 1;
    }
    for (size_t i = 0; i < sizeof bytes; i++)
        if ((bytes[i] & 1) != ((packed[i / 8] >> (7 - i % 8)) & 1)) {
            fprintf(stderr, "the bytes' lowest bit is not the packed picture\n");
            return 1;
        }
    printf("P4\n%d %d\n", WIDTH, HEIGHT);
    for (size_t i = 0; i < sizeof packed; i++)
        putchar(0xFF & ~packed[i]);
    return 0;
}
