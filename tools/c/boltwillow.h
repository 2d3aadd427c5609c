/* Boltwillow's proved sound chip, for C. The library is crates/boltwillow; what each function leaves is its contract there.

   A slice is a pointer and a length of 64 bits: so many bytes from there on, of the caller. The pointer is not null, also where the
   length is 0. A slice that a function writes overlaps no other slice of the call. The functions keep nothing between two calls and
   take no memory but the stack: 256 KB of it are enough, which is measured and not proved.

   Refusals, as numbers; 0 is success. A refused call writes no byte of what it was lent.
     1  RAM isn't 65,536 bytes
     3  a log is over 60,000 bytes
     4  unknown mark in a log
     5  a record of a log is cut short
     6  a register above $7F
     7  a tick count of 0, or over 32,000 ticks in all
     8  no end record
     9  bytes behind the end record
    10  PCM, sheet or readings aren't exactly as long as the log needs; of a sound file: the samples aren't whole frames or are over
        32,000 of them, or what is lent is of another length than they need
    11  echo writing is on at some tick: the whole sitting has to be run
    12  the logs differ outside the named voices' own registers
    13  not a sound file of just the layout that bw_write_wav writes
   (2 is a machine record that is unfit; none is passed here.) */
#ifndef BOLTWILLOW_H
#define BOLTWILLOW_H
#include <stdint.h>
#ifdef __cplusplus
extern "C" {
#endif

#define BW_RAM_SIZE 65536
#define BW_LOG_MOST 60000
#define BW_PCM_A_TICK 4    /* left, right, 16 bits each, low byte first */
#define BW_SHEET_A_TICK 36 /* four bytes a voice, then the echo's output */
#define BW_FRAMES_MOST 32000
#define BW_WAV_HEADER 44   /* then the samples: a frame is the PCM of a tick */

/* 0, or why the log is refused: 3 to 9. */
uint8_t bw_measure(const uint8_t *log, uint64_t log_size);

/* What a caller lends for: the log's ticks and its readings, a byte each. 0 where the log is refused. */
uint32_t bw_ticks(const uint8_t *log, uint64_t log_size);
uint32_t bw_readings(const uint8_t *log, uint64_t log_size);

/* Runs a log from power-on: writes RAM (the echo's part of it), PCM, sheet and readings. A log's write to $7C, whatever its value, leaves
   0 there, in every function that plays logs. Refuses 1, 3 to 9, 10, in this order. */
uint8_t bw_run(uint8_t *ram, uint64_t ram_size, const uint8_t *log, uint64_t log_size, uint8_t *pcm, uint64_t pcm_size, uint8_t *sheet,
               uint64_t sheet_size, uint8_t *readings, uint64_t readings_size);

/* Two sittings from power-on whose logs differ in writes to the named voices' own registers, $j0 to $j7; bit j of `named` is voice
   j. Runs the old log, works the named voices of the new one and those that pitch modulation ties to them, and leaves sheet, PCM and
   readings of the new sitting. RAM is read only.
   Refuses 1, 3 to 9 of the old log, 3 to 9 of the new, 12, 11, 10, in this order. */
uint32_t bw_rework(uint8_t named, const uint8_t *ram, uint64_t ram_size, const uint8_t *old_log, uint64_t old_log_size,
                   const uint8_t *new_log, uint64_t new_log_size, uint8_t *pcm, uint64_t pcm_size, uint8_t *sheet, uint64_t sheet_size,
                   uint8_t *readings, uint64_t readings_size);

/* The answer of bw_rework: the refusal; a bit for each voice that was worked; and the number of those. */
#define BW_REFUSAL(answer) ((uint8_t)((answer)&0xFF))
#define BW_MEMBERS(answer) ((uint8_t)((answer) >> 8 & 0xFF))
#define BW_COUNT(answer) ((uint8_t)((answer) >> 16 & 0xFF))

/* A sitting's sound as a file: RIFF/WAVE, PCM, two channels, 16 bits, 32,000 frames a second. `pcm` is whole frames, 32,000 at most, as
   bw_run and bw_rework leave them; `file` has BW_WAV_HEADER bytes more. No frames make a file too. Refuses 10. */
uint8_t bw_write_wav(const uint8_t *pcm, uint64_t pcm_size, uint8_t *file, uint64_t file_size);

/* The frames of a file of just that layout, so that a caller knows what to lend: 0 and the frames, or 13. */
uint32_t bw_wav_frames(const uint8_t *file, uint64_t file_size);

/* The samples of such a file; `pcm` has BW_PCM_A_TICK bytes a frame. Refuses 13, 10, in this order, and then answers no frames. */
uint32_t bw_read_wav(const uint8_t *file, uint64_t file_size, uint8_t *pcm, uint64_t pcm_size);

/* The answer of bw_wav_frames and bw_read_wav: BW_REFUSAL, and the frames. */
#define BW_FRAMES(answer) ((uint32_t)((answer) >> 8))

#ifdef __cplusplus
}
#endif
#endif
