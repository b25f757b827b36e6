/* The spectrogram sheet smoother as a C library: libsmoother.a, made by `scripts/staticlib smoother`.
 *
 *     gcc -std=c11 -Iinclude program.c target/staticlib/libsmoother.a -o program
 *
 * Order of work: measure a sheet text, read it into buffers of the measured lengths, fill a run's record from it, start, then the
 * jobs of each step: push and data of every channel, blend once for all, move and project of every channel. Or, for a whole sheet,
 * measure, read, smoother_solve and smoother_finish.
 *
 * Memory. The library allocates nothing, keeps no pointer and has no state: every buffer and the record belong to the caller, who
 * lends them for the length of a call. So calls on different buffers may be made by different threads.
 *
 * What a caller owes, and the library cannot check: each pointer is valid for its length, aligned for its type and not null (also
 * where the length is 0); nothing that a call writes overlaps anything else that it is lent; `mark` holds 0 or 1, as a C `bool`
 * always does; during every call that computes the calling thread's processor rounds to the nearest, ties to even, and keeps subnormals.
 * Everything else is checked: a length, number, level, quantiser, position or weight that is not usable is refused.
 *
 * Rounding. A processor does so unless it is told otherwise: by fesetround, by _mm_setcsr, by a program or shared library that was linked with
 * -ffast-math or -Ofast. Then smoother_start, smoother_push, smoother_data, smoother_blend, smoother_move, smoother_project, smoother_serve, smoother_solve
 * and smoother_finish answer 0 as ever, but most values that they leave are others; the library cannot know it. Ask smoother_rounds_to_nearest() before
 * such a call. The other calls compute no float, and do not depend on it. (The library uses SSE alone: the x87 control word does not matter.)
 *
 * Answers. 0 is done. A number of the table is a refusal: nothing that was lent has changed, except `*line` of measure and read, and `*which` and `*line` of the stitching calls. 255 (project
 * and smoother_solve) is done, and the channel is now marked blown, or a channel blew in the run. */
#ifndef SMOOTHER_H
#define SMOOTHER_H

#include <stdbool.h>
#include <stddef.h>
#include <stdint.h>
#include <xmmintrin.h> /* _mm_getcsr; the library is for x86-64 */

#ifdef __cplusplus
extern "C" {
#endif

/* Whether the calling thread's floats are rounded to the nearest, ties to even, and its subnormals kept, as operands and as results: rounding control,
 * flush to zero and denormals are zero of MXCSR are 0. It stands in this header alone, and takes a few nanoseconds. */
static inline bool smoother_rounds_to_nearest(void)
{
    return (_mm_getcsr() & 0xE040) == 0;
}

/* The numbers of the table in document 01. */
enum smoother_answer {
    SMOOTHER_OK = 0,
    SMOOTHER_FORM = 1,     /* a line with a wrong tag, number of fields or spelling, over 1,024 bytes, or in the wrong place */
    SMOOTHER_SIZE = 2,     /* a side, channel count or iteration count out of range, or a channel larger than the picture; also a limit or a reader that is none */
    SMOOTHER_FACTOR = 3,   /* an across or down factor that is not 1 to 4 */
    SMOOTHER_TABLE = 4,    /* a quantiser that is not 1 to 255 */
    SMOOTHER_LEVEL = 5,    /* a level beyond +-2,047 */
    SMOOTHER_WEIGHT = 6,   /* a weight with its sign bit set, infinite, not a number, or a whole number above 255 */
    SMOOTHER_CUT = 7,      /* the text ends early, its last line has no end, or something follows E */
    SMOOTHER_LENGTH = 8,   /* a lent buffer has another length than the record says */
    SMOOTHER_TURN = 9,     /* the job is not the channel's next, or for blend not every channel's */
    SMOOTHER_BLOWN = 10,   /* the channel, or for blend any channel, is marked */
    SMOOTHER_DONE = 11,    /* the channel, or for blend any channel, has had all its steps */
    SMOOTHER_CHANNEL = 12, /* there is no such channel */
    SMOOTHER_RECORD = 13,  /* sizes, factors, weights, iterations, held steps, letter, positions, marks or clipped numbers of no legal record */
    SMOOTHER_RANGE = 14,   /* a lowest level above the highest of its place */
    SMOOTHER_PAGE = 15,    /* an iteration count within 1,000 but above the caller's limit */
    SMOOTHER_SEAM = 16,    /* two sheets that do not fit side by side */
    SMOOTHER_HOLD = 17,    /* a count of line H above the iterations that it is measured against */
    SMOOTHER_MARK = 18,    /* a mark of line N whose channel or block the sheet has not, or whose block is marked already */
    SMOOTHER_SEGMENT = 19,   /* a DQT segment with a wrong marker or stated length, or with fewer than 64 bytes left for a table */
    SMOOTHER_PRECISION = 20, /* a table of a DQT segment with a precision other than 0 or a destination above 3 */
    SMOOTHER_NOW_BLOWN = 255 /* project: done, and the channel is now marked blown; smoother_solve: a channel blew */
};

/* ---- Reading a sheet text ---- */

/* The largest limits that measure and read take. The program `smooth` has 32 and 1,000. */
#define SMOOTHER_MOST_SIDE 512
#define SMOOTHER_MOST_ITERATIONS 1000

/* Measures a text of `text_len` bytes. `side` is the largest full side that is accepted, a multiple of 8, 8 to 512; `iterations` the largest
 * iteration count, 0 to 1,000, of spare ones too. Another limit is 2 at line 0, before the text is looked at.
 * 0: *levels (of lows, and of highs) and *tables are the lengths that smoother_read needs, *line is 0. Whatever the limits, a text that is accepted reads as the same sheet.
 * 1 to 7, 14, 15, 17, 18: *line is the line at fault, counted from 1; *levels and *tables are unchanged. 15 is a count above `iterations`, at its field;
 * one above 1,000 is 2. */
uint32_t smoother_measure(const uint8_t *text, size_t text_len, uint32_t side, uint32_t iterations, size_t *levels, size_t *tables, size_t *line);

/* Where the numbers of a sheet's record stand in `header`: the fields of line S, own sides and factors of three channels, then the
 * settings by their meaning, also where no line says them. */
enum smoother_header {
    SMOOTHER_AT_W = 0,
    SMOOTHER_AT_H = 1,
    SMOOTHER_AT_PICTURE_WIDTH = 2,
    SMOOTHER_AT_PICTURE_HEIGHT = 3,
    SMOOTHER_AT_CHANNELS = 4,   /* 1 or 3 */
    SMOOTHER_AT_JOINT = 5,      /* 1 joint mode, 0 separate */
    SMOOTHER_AT_ITERATIONS = 6, /* three */
    SMOOTHER_AT_SMOOTHING = 9,  /* three weights, as the bits of their f32 */
    SMOOTHER_AT_DATA = 12,      /* three weights, as the bits of their f32 */
    SMOOTHER_AT_OWN = 15,       /* per channel own width, own height, across factor, down factor; 0 where there is no such channel */
    SMOOTHER_AT_ROUNDING = 27,  /* 0 truncated, 1 nearest (line F) */
    SMOOTHER_AT_REORDER = 28,   /* 0 after each block, 1 once (line A) */
    SMOOTHER_AT_HELD = 29,      /* three: after how many steps each channel is held (line H); the iterations that it is measured against where no line says it */
    SMOOTHER_NUMBERS = 32
};

/* Who reads, for smoother_read. */
enum smoother_reader {
    SMOOTHER_STAFF = 0,  /* gets all levels */
    SMOOTHER_PARTNER = 1 /* gets the same but for 0 in place of all levels, or pairs, after the first of a block that a line N marks */
};

/* Reads a text. `partner` is SMOOTHER_STAFF or SMOOTHER_PARTNER; another number is 2 at line 0, before the text is looked at. Whether and how a text is
 * refused is the same for both. `lows` and `highs` have the measured length of levels, `tables` that of tables, `header` has SMOOTHER_NUMBERS places.
 * 0: all four are filled, *line is 0. Lows and highs are w x h values a channel: the pairs of the G lines, and each level of a B line in both;
 * tables are 64 quantisers a channel.
 * 1 to 7, 14, 15, 17, 18: as measure answers for this text. 8, with *line 0: the text is legal, a length is wrong. A refusal leaves the four as they were. */
uint32_t smoother_read(const uint8_t *text, size_t text_len, uint32_t side, uint32_t iterations, uint32_t partner, int16_t *lows,
                       size_t lows_len, int16_t *highs, size_t highs_len, uint16_t *tables, size_t tables_len, uint32_t *header, size_t header_len, size_t *line);

/* ---- A run ---- */

/* A channel of the run. */
struct smoother_channel {
    uint32_t width;  /* own width w, a multiple of 8; w x across is at most W */
    uint32_t height; /* own height h */
    uint32_t across; /* factors, 1 to 4 */
    uint32_t down;
    float weight;      /* data weight: finite, sign bit clear */
    uint32_t held;     /* held after this many steps, 0 to N; N holds it in none */
    uint32_t position; /* accepted jobs, 0 to 5N; its remainder modulo 5 is the next job's number */
    bool mark;         /* blown */
    uint32_t clipped;  /* coefficients that its last project clipped, at most w x h; 0 before position 5, the end of the first */
};

/* A held channel takes its turns, but from position 5 x held on its jobs leave its buffers as they are, blend neither reads nor writes them, and its
 * project keeps its clipped number. */

/* The run's record. Joint mode is one run of all channels, with the sheet's first iteration count and first smoothing weight, and
 * each channel's data weight and held steps. In separate mode each channel is a run of its own, with its own iteration count, smoothing weight and held
 * steps, but always the first data weight. The letter of line A is the sheet's in both. The places past `count` are not looked at. */
struct smoother_run {
    uint32_t w; /* W and H: multiples of 8, 8 to 512 */
    uint32_t h;
    uint32_t n;      /* N: steps, 0 to 1,000 */
    float smoothing; /* smoothing weight: finite, sign bit clear */
    uint32_t reorder; /* line A, which start looks at: its image is reordered 0 after each block (m), 1 once (o); every call refuses (13) any other */
    uint32_t count;   /* channels: 1 or 3 */
    struct smoother_channel channels[3];
};

/* Bytes of the struct smoother_run that the library was built with, and the count of a sheet's numbers: where they differ from
 * sizeof(struct smoother_run) and SMOOTHER_NUMBERS, this header is not the library's. */
uint32_t smoother_run_bytes(void);
uint32_t smoother_sheet_numbers(void);

/* 1 where the record is legal, with at most 20 iterations, a smoothing weight and data weights of at most 1: then no call on its runs ever answers 255 or
 * 10, whatever levels, tables and calls follow. Else 0, and nothing is promised. The record is as it was. */
uint32_t smoother_never_blows(struct smoother_run *run);

/* The buffers. plane, prior, gradient, across, down and saved have count x W x H values each, channel after channel, row by row; lows,
 * highs and tables are those of the run's channels, in their order: w x h lows, w x h highs and 64 quantisers a channel. A level that is known stands
 * in both, at the same place. A call is lent those buffers that it reads or writes, whole. All calls look for 13 first, then 8, then (where levels
 * and tables are lent) 4 in all channels, then 5 and 14 in each pair, place after place and channel after channel, then 12, 10, 11, 9. */

/* A fresh run: plane and prior are the start, saved is (low + high) / 2 x quantiser, the rest 0; positions become 0, marks and clipped numbers are cleared.
 * Takes any legal record, at any position. 0, 13, 8, 4, 5, 14. */
uint32_t smoother_start(struct smoother_run *run, const int16_t *lows, size_t lows_len, const int16_t *highs, size_t highs_len,
                        const uint16_t *tables, size_t tables_len, float *plane, size_t plane_len, float *prior, size_t prior_len,
                        float *gradient, size_t gradient_len, float *across, size_t across_len, float *down, size_t down_len,
                        float *saved, size_t saved_len);

/* Job 0 of channel c (from 0): the plane goes on in the direction of its last change. 0, 13, 8, 12, 10, 11, 9. */
uint32_t smoother_push(struct smoother_run *run, uint32_t c, float *plane, size_t plane_len, float *prior, size_t prior_len);

/* Job 1 of channel c: the gradient of the distance from (low + high) / 2. 0, 13, 8, 4, 5, 14, 12, 10, 11, 9. */
uint32_t smoother_data(struct smoother_run *run, uint32_t c, const int16_t *lows, size_t lows_len, const int16_t *highs,
                       size_t highs_len, const uint16_t *tables, size_t tables_len, float *gradient, size_t gradient_len,
                       const float *saved, size_t saved_len);

/* Job 2, once for all channels: adds the gradients of both orders. totals has two places (totals_len is 2, else 8), which become the totals of the first
 * and of the second order: what the smoothing is to lower. A NaN among them has some NaN's bits. 0, 13, 8, 10, 11, 9. */
uint32_t smoother_blend(struct smoother_run *run, const float *plane, size_t plane_len, float *gradient, size_t gradient_len,
                        float *across, size_t across_len, float *down, size_t down_len, double *totals, size_t totals_len);

/* Job 3 of channel c: the plane goes down the gradient. 0, 13, 8, 12, 10, 11, 9. */
uint32_t smoother_move(struct smoother_run *run, uint32_t c, float *plane, size_t plane_len, const float *gradient, size_t gradient_len);

/* Job 4 of channel c: back into the intervals that the levels allow. 0, or 255 where a plane value or saved coefficient is now NaN or
 * infinite: the job is done, and the channel is marked. Either way run->channels[c].clipped is the number of coefficients that were clipped:
 * those that lay below or above their interval, not at an end of it; a NaN is none. 13, 8, 4, 5, 14, 12, 10, 11, 9. */
uint32_t smoother_project(struct smoother_run *run, uint32_t c, const int16_t *lows, size_t lows_len, const int16_t *highs,
                          size_t highs_len, const uint16_t *tables, size_t tables_len, float *plane, size_t plane_len,
                          float *across, size_t across_len, float *down, size_t down_len, float *saved, size_t saved_len);

/* Starts a fresh run and makes a list of calls: call i is job jobs[i], 0 push to 4 project, of channel channels[i] (not looked at for
 * blend), and answers[i] becomes its answer, 0, a refusal's number or 255. A refused call changes nothing, and the list goes on.
 * jobs, channels and answers have one length.
 * 0: the run was started and every call was made. 13, 8, 4, 5, 14, or 9 for a number that is no job: nothing was done. */
uint32_t smoother_serve(struct smoother_run *run, const uint8_t *jobs, size_t jobs_len, const uint32_t *channels,
                        size_t channels_len, uint8_t *answers, size_t answers_len, const int16_t *lows, size_t lows_len,
                        const int16_t *highs, size_t highs_len, const uint16_t *tables, size_t tables_len, float *plane,
                        size_t plane_len, float *prior, size_t prior_len, float *gradient, size_t gradient_len, float *across,
                        size_t across_len, float *down, size_t down_len, float *saved, size_t saved_len);

/* ---- A whole sheet ---- */

/* The whole run of a sheet, in its mode, by the SMOOTHER_NUMBERS numbers that smoother_read lends out: joint mode is one run, in separate mode
 * each channel is one. plane, prior, gradient, across, down and saved have channels x W x H values each in either mode; what they hold before
 * does not matter. totals has two places for each blend, one blend in each step of each run: 2 x N values, N being the first iteration count in joint
 * mode and the sum of the channels' in separate mode. clipped has one place for each channel. The runs of both modes must be legal, whatever the mode:
 * with three channels all three iteration counts and held step counts, smoothing weights and data weights are looked at in either mode (13). Not looked at are the
 * picture's sides, the rounding's number, and with one channel the second and third of those counts and weights and the second and third channel.
 * 0: the six hold each channel's after its last job, channel after channel; plane the planes, totals both totals of each blend, run after run and step
 * after step, and clipped the number of coefficients that each channel's last project clipped, 0 without steps.
 * 255: a channel is blown; the contents of the six and of totals are not promised, and clipped is unchanged.
 * 8 for another count of numbers, 13 for a mode or a reordering that is not 0 or 1 and for numbers of no legal sheet, held steps above the iterations too, 8, 4, 5, 14: all six,
 * totals and clipped are unchanged. */
uint32_t smoother_solve(const uint32_t *header, size_t header_len, const int16_t *lows, size_t lows_len, const int16_t *highs,
                        size_t highs_len, const uint16_t *tables, size_t tables_len, float *plane, size_t plane_len, float *prior,
                        size_t prior_len, float *gradient, size_t gradient_len, float *across, size_t across_len, float *down,
                        size_t down_len, float *saved, size_t saved_len, uint32_t *clipped, size_t clipped_len, double *totals,
                        size_t totals_len);

/* The picture of solved planes: channels x W x H values, only read. rgb has 3 x picture width x picture height bytes: red, green and blue
 * of each pixel, row by row. Adds 128 to channel 0, converts, clamps and rounds; NaN gives 0. rounding is 0 (truncated, as the published Rust) or
 * 1 (the nearest whole number, halves upward, as T.871), else 13. 0, 13, 8. */
uint32_t smoother_finish(uint32_t rounding, uint32_t w, uint32_t h, uint32_t picture_width, uint32_t picture_height, uint32_t channels,
                         const float *planes, size_t planes_len, uint8_t *rgb, size_t rgb_len);

/* ---- Two sheets stitched in time ---- */

/* The text of two sheets side by side: full, own and picture widths are the sums, the left sheet's blocks come first in each row of blocks, block
 * lines are copied as written, and the marks of both are kept, the right's columns moved. Both texts are judged at side limit 512 and iteration limit
 * 1,000. They must have equal full and own heights, channels, mode, settings, weights, iterations, factors, tables and picture heights, each channel
 * w x across equal to W on both sides, and the left picture must be as wide as its W: else 16.
 * Both answers: 0, or a number of the table. Then *which is 1 where the left text is at fault and 2 where the right one is, with *line its line there;
 * 16, and 2 for a summed width above 512, have *which 0 and *line 0, as has 0. Faults of the left text come first, then of the right, then 16, 2, 8.
 * smoother_stitch_measure: *length is the output's length; a refusal leaves it as it was.
 * smoother_stitch: `out` has exactly that length, else 8, which comes last. A refusal leaves it as it was. */
uint32_t smoother_stitch_measure(const uint8_t *left, size_t left_len, const uint8_t *right, size_t right_len, size_t *length,
                                 uint32_t *which, size_t *line);
uint32_t smoother_stitch(const uint8_t *left, size_t left_len, const uint8_t *right, size_t right_len, uint8_t *out, size_t out_len,
                         uint32_t *which, size_t *line);

/* ---- The archive tapes ---- */

/* The levels of one channel as the tapes store them, and back. Each block of 64 stands in T.81's zigzag order, and its first value is the difference
 * from the first level of the block before, 0 before the first block. Nothing but `out` is written.
 * 8 unless both lengths are equal and a multiple of 64 (0 is one); 5 for a level beyond +-2,047, for smoother_restore one that it would give. */
uint32_t smoother_rearrange(const int16_t *levels, size_t levels_len, int16_t *out, size_t out_len);
uint32_t smoother_restore(const int16_t *stored, size_t stored_len, int16_t *out, size_t out_len);

/* ---- Tables from a JPEG file ---- */

/* Four tables of 64 quantisers, one after the other by destination, each row by row; and the bytes of the segment that has all four. */
#define SMOOTHER_QUANTISERS 256
#define SMOOTHER_DQT 264

/* Stores the tables of a DQT marker segment of T.81 B.2.4.1, from its FF DB to its stated length, at their destinations. A later table for a destination
 * replaces an earlier one; a destination that the segment does not name keeps its table, which is not looked at.
 * 8 unless tables_len is SMOOTHER_QUANTISERS; 19 for a wrong marker or stated length; then table by table 20, 19 for one cut short, and 4 for a
 * quantiser of 0. A refusal leaves all four tables as they were. */
uint32_t smoother_dqt_import(const uint8_t *segment, size_t segment_len, uint16_t *tables, size_t tables_len);

/* Writes the four tables as one segment, destinations rising. 8 unless the lengths are SMOOTHER_QUANTISERS and SMOOTHER_DQT; 4 for a quantiser that
 * is not 1 to 255. A refusal leaves `out` as it was. */
uint32_t smoother_dqt_export(const uint16_t *tables, size_t tables_len, uint8_t *out, size_t out_len);

#ifdef __cplusplus
}
#endif

#endif
