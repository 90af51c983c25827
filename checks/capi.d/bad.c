/* Calls with bad lengths and sizes, and null pointers of length 0: each is refused by its number, and the memory stays. */
#include "../../include/dierwolp.h"

#include <stdio.h>
#include <string.h>

enum { MEMORY = 64 };

static int failed, tried;
static uint8_t memory[MEMORY];
static struct dierwolp_report report;

static void expect(const char *what, uint32_t got, uint32_t wanted)
{
    tried++;
    int kept = 1;
    for (int i = 0; i < MEMORY; i++)
        kept &= memory[i] == 0xA5;
    if (got != wanted || report.stop.number != wanted || !kept) {
        failed++;
        printf("%s: %u for %u%s\n", what, got, wanted, kept ? "" : ", and the memory changed");
    }
}

int main(void)
{
    memset(memory, 0xA5, sizeof memory);
    memset(&report, 0xFF, sizeof report);
    expect("check of nothing", dierwolp_check(NULL, 0, &report), 3);
    expect("no picture", dierwolp_play_packed(NULL, 0, NULL, 0, 0, 0, &report), 1);
    expect("no memory", dierwolp_play_packed(NULL, 0, NULL, 0, 8, 8, &report), 2);
    expect("packed, a row too few", dierwolp_play_packed(NULL, 0, memory, MEMORY, 8, 65, &report), 2);
    expect("packed, all rows", dierwolp_play_packed(NULL, 0, memory, MEMORY, 8, 64, &report), 3);
    expect("bytes, a byte too few", dierwolp_play_bytes(NULL, 0, memory, MEMORY, 65, 1, &report), 2);
    expect("bytes, all bytes", dierwolp_play_bytes(NULL, 0, memory, MEMORY, 8, 8, &report), 3);
    expect("planes, a row too few", dierwolp_play_planes(NULL, 0, memory, MEMORY, 8, 17, &report), 2);
    expect("planes, all rows", dierwolp_play_planes(NULL, 0, memory, MEMORY, 8, 16, &report), 3);
    expect("too wide", dierwolp_play_planes(NULL, 0, memory, MEMORY, 4097, 1, &report), 1);
    expect("as wide as can be said", dierwolp_play_bytes(NULL, 0, memory, MEMORY, UINT32_MAX, UINT32_MAX, &report), 1);
    expect("a length of 17", dierwolp_check(memory, 17, &report), 3);
    expect("a length of 18", dierwolp_check(memory, 18, &report), 4);
    printf("bad: %d tried, %d failed\n", tried, failed);
    return failed != 0;
}
