/* test OLD NEW RAM NAMED: calls the library with two logs that are reworked and not refused. Holds the rework to a run of the new log,
   and both calls to their refusals where a slice has another size: the number, and no byte written. Then the sound of the new log is
   written as a file and read back, and the same is held of these calls. Status 1 at the first failure. */
#include "boltwillow.h"
#include <stdio.h>
#include <stdlib.h>
#include <string.h>

enum { RAM, OLD, NEW, PCM, SHEET, READINGS, SLICES };
#define MOST (32000 * BW_SHEET_A_TICK + 2)
static uint8_t given[SLICES][MOST], bytes[SLICES][MOST];
static uint64_t size[SLICES];
static uint8_t named;
static int checks;

static void hold(int holds, const char *what) {
    if (!holds) {
        fprintf(stderr, "c: %s\n", what);
        exit(1);
    }
    checks++;
}

static void load(int slice, const char *name) {
    FILE *file = fopen(name, "rb");
    hold(file != 0, "a file can't be read");
    size[slice] = fread(given[slice], 1, MOST, file);
    fclose(file);
}

static uint32_t run(int log) {
    memcpy(bytes, given, sizeof given);
    return bw_run(bytes[RAM], size[RAM], bytes[log], size[log], bytes[PCM], size[PCM], bytes[SHEET], size[SHEET], bytes[READINGS], size[READINGS]);
}

static uint32_t rework(void) {
    memcpy(bytes, given, sizeof given);
    return bw_rework(named, bytes[RAM], size[RAM], bytes[OLD], size[OLD], bytes[NEW], size[NEW], bytes[PCM], size[PCM], bytes[SHEET], size[SHEET],
                     bytes[READINGS], size[READINGS]);
}

static void refuses(uint32_t refusal, uint32_t answer) {
    hold(answer == refusal, "another refusal");
    hold(!memcmp(bytes, given, sizeof given), "a refused call wrote");
}

/* One byte less or more of a slice. */
static void sized(int slice, uint32_t of_run, uint32_t of_rework) {
    for (int more = -1; more <= 1; more += 2) {
        size[slice] += more;
        refuses(of_run, run(OLD));
        refuses(of_rework, rework());
        size[slice] -= more;
    }
}

/* A log cut by a byte has lost its end record's last one; with a byte more it goes on behind it. */
static void cut(int log) {
    for (int more = -1; more <= 1; more += 2) {
        uint8_t refusal = more < 0 ? 5 : 9;
        size[log] += more;
        hold(bw_measure(given[log], size[log]) == refusal, "measure");
        hold(bw_ticks(given[log], size[log]) == 0 && bw_readings(given[log], size[log]) == 0, "a refused log's numbers");
        refuses(refusal, run(log));
        refuses(refusal, rework());
        size[log] -= more;
    }
}

#define WAV_MOST (BW_WAV_HEADER + (BW_FRAMES_MOST + 1) * BW_PCM_A_TICK + 1)
static uint8_t source[WAV_MOST], place[WAV_MOST], found[WAV_MOST];

/* Writes the first bytes of `source` to so many of `place`, or reads them; no byte of `place` behind those changes. */
static uint32_t filed(int reads, uint64_t from, uint64_t to) {
    memset(place, 0xA5, sizeof place);
    memcpy(found, place, sizeof place);
    uint32_t answer = reads ? bw_read_wav(source, from, place, to) : bw_write_wav(source, from, place, to);
    hold(!memcmp(place + to, found + to, sizeof place - to), "a file's call wrote behind what it was lent");
    return answer;
}

static void refuses_file(uint32_t refusal, int reads, uint64_t from, uint64_t to) {
    hold(filed(reads, from, to) == refusal, "another refusal of a file");
    hold(!memcmp(place, found, sizeof place), "a refused file's call wrote");
}

/* The file of so many frames of `pcm`, which comes back; a byte more or less of each is refused. */
static void sounds(const uint8_t *pcm, uint64_t frames) {
    uint64_t sound = frames * BW_PCM_A_TICK, file = BW_WAV_HEADER + sound;
    memcpy(source, pcm, sound);
    hold(filed(0, sound, file) == 0, "a sound is refused");
    refuses_file(10, 0, sound, file - 1);
    refuses_file(10, 0, sound, file + 1);
    refuses_file(10, 0, sound + 1, file + 1);
    if (sound) refuses_file(10, 0, sound - 1, file - 1);

    filed(0, sound, file);
    memcpy(source, place, file);
    hold(bw_wav_frames(source, file) == frames << 8, "a file's frames");
    hold(filed(1, file, sound) == frames << 8 && !memcmp(place, pcm, sound), "a file read back");
    refuses_file(10, 1, file, sound + 1);
    if (sound) refuses_file(10, 1, file, sound - 1);
    refuses_file(13, 1, file - 1, sound);
    refuses_file(13, 1, file + 1, sound);
    for (int k = 0; k < BW_WAV_HEADER; k++) {
        source[k]++;
        hold(bw_wav_frames(source, file) == 13, "a changed header");
        refuses_file(13, 1, file, sound);
        source[k]--;
    }
}

int main(int count, char **word) {
    if (count != 5) return 2;
    memset(given, 0xA5, sizeof given);
    load(OLD, word[1]);
    load(NEW, word[2]);
    load(RAM, word[3]);
    named = atoi(word[4]);
    uint64_t ticks = bw_ticks(given[NEW], size[NEW]);
    size[PCM] = ticks * BW_PCM_A_TICK;
    size[SHEET] = ticks * BW_SHEET_A_TICK;
    size[READINGS] = bw_readings(given[NEW], size[NEW]);
    hold(bw_measure(given[NEW], size[NEW]) == 0, "the new log is refused");

    static uint8_t second[SLICES][MOST];
    hold(run(NEW) == 0, "the run is refused");
    memcpy(second, bytes, sizeof bytes);
    uint32_t answer = rework();
    hold(BW_REFUSAL(answer) == 0 && (BW_MEMBERS(answer) & named) == named && BW_COUNT(answer) > 0, "the rework's answer");
    hold(!memcmp(second, bytes, sizeof bytes), "the rework differs from the run of the new log");

    sized(PCM, 10, 10);
    sized(SHEET, 10, 10);
    sized(READINGS, 10, 10);
    sized(RAM, 1, 1);
    cut(OLD);
    cut(NEW);
    size[PCM]++;
    size[NEW]--;
    refuses(5, rework());
    size[OLD] = BW_LOG_MOST + 1;
    refuses(3, run(OLD));
    refuses(3, rework());
    size[RAM] = 0;
    refuses(1, run(OLD));
    refuses(1, rework());

    sounds(second[PCM], ticks);
    sounds(second[PCM], 1);
    sounds(second[PCM], 0);
    sounds(given[SHEET], BW_FRAMES_MOST);
    refuses_file(10, 0, (BW_FRAMES_MOST + 1) * BW_PCM_A_TICK, BW_WAV_HEADER + (BW_FRAMES_MOST + 1) * BW_PCM_A_TICK);
    printf("c: %d checks pass\n", checks);
    return 0;
}
