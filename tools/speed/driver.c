/* driver LOG RAM RUNS: calls rt_run of the compiled library, which is sitting's run_new, over the RAM of a file.
   driver LOG RAM RUNS NEW NAMED: calls rt_run, then rt_redo, the same run with a rework to the log NEW behind it, and prints by how much
   the second takes longer; NAMED is the mask of voices. With 0 runs it calls redo once. */
#include <stdint.h>
#include <stdio.h>
#include <stdlib.h>
#include <string.h>
#include <time.h>

typedef struct { uint8_t *p; uint64_t n; } slice;
uint8_t rt_run(uint8_t *, uint64_t, const uint8_t *, uint64_t, uint8_t *, uint64_t, uint8_t *, uint64_t, uint8_t *, uint64_t);
uint8_t rt_redo(uint8_t, uint8_t *, uint64_t, const uint8_t *, uint64_t, const uint8_t *, uint64_t, uint8_t *, uint64_t, uint8_t *, uint64_t, uint8_t *, uint64_t);
#define LENT(s) (s).p, (s).n
static uint8_t image[65536], ram[65536], logged[65536], other[65536], pcm[32000 * 4], sheet[32000 * 36], readings[20000];

static void digest(const char *name, const uint8_t *bytes, uint64_t n) {
    uint64_t d = 0xCBF29CE484222325ULL;
    for (uint64_t i = 0; i < n; i++) d = (d ^ bytes[i]) * 0x100000001B3ULL;
    printf("%s %016llX\n", name, (unsigned long long)d);
}

/* The ticks of a log that is well formed, as all logs here are. */
static uint64_t ticks_of(const uint8_t *log, uint64_t n) {
    uint64_t ticks = 0;
    for (uint64_t at = 0; at + 4 <= n; at += 4)
        if (log[at] == 'T') ticks += log[at + 2] + 256 * log[at + 3];
    return ticks;
}

static uint64_t load(const char *name, uint8_t *to) {
    FILE *file = fopen(name, "rb");
    if (!file) exit(2);
    uint64_t size = fread(to, 1, 65536, file);
    fclose(file);
    return size;
}

static void fill(void) {
    memcpy(ram, image, 65536);
}

static int64_t now(void) {
    struct timespec t;
    clock_gettime(CLOCK_MONOTONIC, &t);
    return t.tv_sec * 1000000000LL + t.tv_nsec;
}

int main(int count, char **words) {
    if ((count != 4 && count != 6) || load(words[2], image) != 65536) return 2;
    uint64_t size = load(words[1], logged), ticks = ticks_of(logged, size);
    uint64_t new_size = count == 6 ? load(words[4], other) : 0;
    uint8_t named = count == 6 ? strtol(words[5], 0, 0) : 0;
    slice lent = {ram, 65536}, log = {logged, size}, new = {other, new_size};
    slice samples = {pcm, ticks * 4}, rows = {sheet, ticks * 36}, told = {readings, 0};
    uint8_t refusal = 0;
    for (int k = atoi(words[3]); k > 0; k--) {
        fill();
        int64_t begun = now();
        refusal |= rt_run(LENT(lent), LENT(log), LENT(samples), LENT(rows), LENT(told));
        int64_t took = now() - begun;
        if (count == 6) {
            fill();
            begun = now();
            refusal |= rt_redo(named, LENT(lent), LENT(log), LENT(new), LENT(samples), LENT(rows), LENT(told));
            took = now() - begun - took;
        }
        printf("%lld\n", (long long)took);
    }
    if (count == 6 && atoi(words[3]) == 0) {
        fill();
        refusal |= rt_redo(named, LENT(lent), LENT(log), LENT(new), LENT(samples), LENT(rows), LENT(told));
    }
    digest("RAM", ram, 65536);
    digest("PCM", pcm, ticks * 4);
    return refusal;
}
