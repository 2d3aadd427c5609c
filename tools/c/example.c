/* example OLD NEW RAM NAMED: two sittings by their logs, over the RAM of a file. Plays the old one, reworks it to the new one and says
   which readings have to be marked again. The sound of each is left as a file, old.wav and new.wav, and compared as it stands there.
   NAMED has a bit for each voice whose own registers were changed: 8, or 0x08, for voice 3.
   Status 1: refused. 2: bad words, or a file that can't be read or written. */
#include "boltwillow.h"
#include <stdio.h>
#include <stdlib.h>
#include <string.h>

typedef struct {
    uint8_t *bytes;
    uint64_t size;
} slice;

/* What a log needs. */
typedef struct {
    slice pcm, sheet, readings;
} room;

static slice lent(uint64_t size) {
    slice s = {calloc(size + 1, 1), size};
    if (!s.bytes) {
        fprintf(stderr, "example: no memory\n");
        exit(2);
    }
    return s;
}

static room room_for(slice log) {
    uint64_t ticks = bw_ticks(log.bytes, log.size);
    room r = {lent(ticks * BW_PCM_A_TICK), lent(ticks * BW_SHEET_A_TICK), lent(bw_readings(log.bytes, log.size))};
    return r;
}

/* A file, and one byte more than `most` of a longer one, so that the library refuses it. */
static slice load(const char *name, uint64_t most) {
    slice s = lent(most + 1);
    FILE *file = fopen(name, "rb");
    if (file) s.size = fread(s.bytes, 1, most + 1, file);
    if (!file || ferror(file)) {
        fprintf(stderr, "example: cannot read %s\n", name);
        exit(2);
    }
    fclose(file);
    return s;
}

static const char *words(uint8_t refusal) {
    switch (refusal) {
    case 1: return "RAM isn't 65,536 bytes";
    case 3: return "the log is over 60,000 bytes";
    case 4: return "the log has an unknown mark";
    case 5: return "a record of the log is cut short";
    case 6: return "the log names a register above $7F";
    case 7: return "the log has a tick count of 0, or over 32,000 ticks";
    case 8: return "the log has no end record";
    case 9: return "bytes stand behind the log's end record";
    case 10: return "a slice isn't as long as it has to be";
    case 11: return "echo writing is on at some tick, so the whole sitting has to be marked again";
    case 12: return "the logs differ outside the named voices, so the whole sitting has to be marked again";
    case 13: return "the file is not of this layout";
    default: return "unknown";
    }
}

static int refused(const char *what, uint8_t refusal) {
    printf("%s is refused, %u: %s.\n", what, refusal, words(refusal));
    return 1;
}

static void say_voices(const char *title, uint8_t set) {
    const char *before = " ";
    printf("%s:", title);
    for (int j = 0; j < 8; j++)
        if (set >> j & 1) {
            printf("%s%d", before, j);
            before = ", ";
        }
    printf("%s", set ? "" : " none");
}

/* The samples as a file. */
static uint8_t save_sound(const char *name, slice pcm) {
    slice wav = lent(BW_WAV_HEADER + pcm.size);
    uint8_t refusal = bw_write_wav(pcm.bytes, pcm.size, wav.bytes, wav.size);
    if (refusal) return refusal;
    FILE *file = fopen(name, "wb");
    if (!file || fwrite(wav.bytes, 1, wav.size, file) != wav.size || fclose(file)) {
        fprintf(stderr, "example: cannot write %s\n", name);
        exit(2);
    }
    return 0;
}

/* A file's samples. */
static uint8_t load_sound(const char *name, slice *pcm) {
    slice wav = load(name, BW_WAV_HEADER + BW_FRAMES_MOST * BW_PCM_A_TICK);
    *pcm = lent((uint64_t)BW_FRAMES(bw_wav_frames(wav.bytes, wav.size)) * BW_PCM_A_TICK);
    return BW_REFUSAL(bw_read_wav(wav.bytes, wav.size, pcm->bytes, pcm->size));
}

static void say_changes(room old, room new) {
    uint64_t same = 0, heard = 0, ticks = new.pcm.size / BW_PCM_A_TICK;
    for (uint64_t k = 0; k < new.readings.size; k++)
        if (old.readings.bytes[k] == new.readings.bytes[k])
            same++;
        else
            printf("Reading %llu: %02X, was %02X\n", (unsigned long long)k + 1, new.readings.bytes[k], old.readings.bytes[k]);
    for (uint64_t t = 0; t < ticks; t++)
        heard += memcmp(old.pcm.bytes + t * BW_PCM_A_TICK, new.pcm.bytes + t * BW_PCM_A_TICK, BW_PCM_A_TICK) != 0;
    printf("%llu of %llu readings are as before.\n", (unsigned long long)same, (unsigned long long)new.readings.size);
    printf("The sound differs at %llu of %llu ticks.\n", (unsigned long long)heard, (unsigned long long)ticks);
}

int main(int count, char **word) {
    char *end = "?";
    unsigned long named = count == 5 ? strtoul(word[4], &end, 0) : 0;
    if (count != 5 || *end || end == word[4] || named > 255) {
        fprintf(stderr, "usage: example OLD NEW RAM NAMED\n");
        return 2;
    }
    slice old_log = load(word[1], BW_LOG_MOST), new_log = load(word[2], BW_LOG_MOST), ram = load(word[3], BW_RAM_SIZE);
    room old = room_for(old_log), new = room_for(new_log);

    /* A run writes RAM, so it gets a copy. */
    slice copy = lent(ram.size);
    memcpy(copy.bytes, ram.bytes, ram.size);
    uint8_t ran = bw_run(copy.bytes, copy.size, old_log.bytes, old_log.size, old.pcm.bytes, old.pcm.size, old.sheet.bytes, old.sheet.size,
                         old.readings.bytes, old.readings.size);
    if (ran) return refused("The old sitting", ran);

    uint32_t answer = bw_rework(named, ram.bytes, ram.size, old_log.bytes, old_log.size, new_log.bytes, new_log.size, new.pcm.bytes,
                                new.pcm.size, new.sheet.bytes, new.sheet.size, new.readings.bytes, new.readings.size);
    if (BW_REFUSAL(answer)) return refused("The rework", BW_REFUSAL(answer));

    say_voices("Named voices", named);
    say_voices("\nWorked again", BW_MEMBERS(answer));
    printf(" (%d of 8)\n", BW_COUNT(answer));

    /* What is compared is what the files hold. */
    uint8_t filed = save_sound("old.wav", old.pcm);
    if (!filed) filed = save_sound("new.wav", new.pcm);
    if (!filed) filed = load_sound("old.wav", &old.pcm);
    if (!filed) filed = load_sound("new.wav", &new.pcm);
    if (filed) return refused("A sound", filed);
    say_changes(old, new);
    printf("The sound of both is in old.wav and new.wav.\n");
    return 0;
}
