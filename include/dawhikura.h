/* The level line of a month of mail delay, from C: with libdawhikura, static or shared (README, "From C").
 *
 * One duty is on the caller's side: each area is as long as the count beside it says, and an area that is written lies apart from the others. Any area may
 * be NULL where its count is 0. Nothing else need be true of what is handed over. A call that returns a refusal leaves every area as it was; one that does
 * not keeps the entries and bytes past those that it fills.
 *
 * No call allocates or keeps anything for later, so calls are reentrant and thread-safe: any number of them may run at once, on the same inputs too, as
 * long as nothing else uses an area that a call writes, or writes one that it reads, until that call returns.
 *
 * Stack: dawhikura_sheet_read and dawhikura_sheet_complete have lists of their own; they need 40 KiB for a sheet of up to 1,440 minutes, and 1 MiB and 40 KiB
 * for a longer one. dawhikura_series_line_fast needs 768 KiB and 16 KiB, however short the series, every other call 16 KiB.
 *
 * Time: dawhikura_sheet_complete and dawhikura_series_line_fast are linear on every input, as reading, writing, checking, charts and building a summary are:
 * some 8 ns a minute of noise, and up to 27 on the worst series found (README, "Speed"); reading and writing CSV, linear too, take some 25 ns a minute.
 * dawhikura_series_line, dawhikura_series_fused_lasso, dawhikura_series_balances, dawhikura_online_fetch and dawhikura_online_close, which need no long lists of
 * their own, are as fast on noise but quadratic on some series: a ramp of 65,536 minutes takes up to seven seconds.
 *
 * A result below 0 is a refusal: minus (256 times the place, plus the number), so that for r < 0 the number is -r % 256 and the place -r / 256. A place is
 * at most 65,536, or at most the count of segments handed over; in a list of more than 2^54 segments a place above 2^54 is told as 2^54.
 *
 *   1  no minutes                             5  a list has fewer entries than the call needs, or the output is too short
 *   2  more than 65,536 minutes               6  a line's shape: no segment or lists of unequal length; a length of 0, place its segment;
 *   3  a sample beyond 16,777,216 either         lengths that do not add up
 *      way, place its minute                  7  a total beyond its length times 16,777,216, place its segment
 *   4  a smoothing above 2^40                 8  neighbours of equal level, place the second
 *                                             9  conditions (6), (7) of Condat 2013 broken, place the first such minute
 *  10  a sheet of under 32 bytes             12  field 8, 12, 24 or 28 differs from the table, or field 24 from the bytes given,
 *  11  more segments than minutes, place 4       place the first such byte
 *  13  the line has no such minute           14  the running series is closed
 *                                            15  a floor above 16,777,216
 *                                            16  the series has no such stretch or minute
 *                                            17  a record that is not its minute's, place that record
 *                                            24  series of more than 6 minutes, or a top value above 9, to be counted
 *
 * Of a summary 7 is an entry beyond its minutes times 16,777,216, place that entry. Minutes, segments, records and the entries of a summary are numbered
 * from 1. */
#ifndef DAWHIKURA_H
#define DAWHIKURA_H

#include <stddef.h>
#include <stdint.h>

#ifdef __cplusplus
extern "C" {
#endif

/* The line of a series. The first entries of both lists are its segments; the result is their number. The lists need as many entries as there are
 * samples. Refusals 1, 2, 4, 3, 5. */
int64_t dawhikura_series_line(const int32_t *samples, size_t minutes, uint64_t smoothing, uint32_t *lengths, size_t lengths_len, int64_t *totals,
                              size_t totals_len);

/* The same line, refusals and kept entries, in linear time on every series: for samples that come from strangers. */
int64_t dawhikura_series_line_fast(const int32_t *samples, size_t minutes, uint64_t smoothing, uint32_t *lengths, size_t lengths_len, int64_t *totals,
                                   size_t totals_len);

/* The line above a quiet floor: the fused lasso of Condat 2013, (2) and (3). Of the line's levels those of at most the floor either way become 0, all others
 * move by the floor toward 0, and neighbours that both become 0 are one segment. With the floor times all distances from 0 added to the cost, no other line
 * costs as little. The first entries of both lists are its segments; the result is their number, which may be less than the line's. The lists need as many
 * entries as there are samples. With a floor of 0 it is the line. It can be charted; checks and sheets are for lines without a floor.
 * Refusals 1, 2, 4, 15, 3, 5. */
int64_t dawhikura_series_fused_lasso(const int32_t *samples, size_t minutes, uint64_t smoothing, uint64_t floor, uint32_t *lengths, size_t lengths_len,
                                     int64_t *totals, size_t totals_len);

/* The balance after each minute, times the length of the segment that holds it. The first entries of the list are the balances, one a sample; the
 * result is their number. The list needs as many entries as there are samples. Refusals 1, 2, 4, 3, 5. */
int64_t dawhikura_series_balances(const int32_t *samples, size_t minutes, uint64_t smoothing, int64_t *out, size_t out_len);

/* Whether a line that somebody else drew is the line of the series: 0, or the first refusal of 1, 2, 4, 3, 6, 7, 8, 9. */
int64_t dawhikura_series_check(const int32_t *samples, size_t minutes, uint64_t smoothing, const uint32_t *lengths, size_t lengths_len,
                               const int64_t *totals, size_t totals_len);

/* A series that is still running. Its samples live in the caller's list, one entry a minute, and its state in the first three entries of another: the
 * smoothing, the samples taken, and 0 while it is open (anything else is closed). Both are handed to every call; nothing else is kept. A state list of under
 * three entries gets 5, place 0, before all else. A refused call leaves state and lists as they were. States and lists may be changed between calls: each
 * call goes by what it finds.
 *
 * Opens a series: writes its state, and gives 0. Refusal 4. */
int64_t dawhikura_online_open(uint64_t smoothing, uint64_t *state, size_t state_len);

/* Takes one sample more: it is written at its minute's place, and the result is the number of samples then taken. Refusals 14; 2 for the 65,537th sample; 4;
 * 3 for this sample; 5 where the list is full. Samples taken before are not looked at. */
int64_t dawhikura_online_push(uint64_t *state, size_t state_len, int32_t sample, int32_t *samples, size_t samples_len);

/* The segments that are settled, in the first entries of both lists; the result is their number, which may be 0. Whatever samples follow, they are the first
 * segments of the line. Of a closed series, the line. All three lists need as many entries as samples were taken. Refusals 1 where it is closed and
 * empty, 2, 4, 3 for a sample taken that is in the list, then 5. It looks at all samples taken, in the time of dawhikura_series_line. */
int64_t dawhikura_online_fetch(const uint64_t *state, size_t state_len, const int32_t *samples, size_t samples_len, uint32_t *lengths, size_t lengths_len,
                               int64_t *totals, size_t totals_len);

/* Closes a series: the line of all samples taken, as a fetch gives it from then on, and 1 in the state's third entry. The result is the number of segments.
 * Refusals 14, 1 where nothing was taken, then as a fetch. */
int64_t dawhikura_online_close(uint64_t *state, size_t state_len, const int32_t *samples, size_t samples_len, uint32_t *lengths, size_t lengths_len,
                               int64_t *totals, size_t totals_len);

/* Sums of a stretch of minutes, by a summary that the caller keeps beside the samples. Entry e of it, numbered from 1, is the running total after 256 * e
 * minutes; it has minutes / 256 entries, and a list with fewer gets 5. Entries past those are not looked at and stay. Each call goes by what it reads: a
 * summary that was built from the samples and then kept by replacements gives their sums, any other is taken as it is.
 *
 * Builds a summary: the first entries of the list, one for each full 256 minutes; the result is their number. Refusals 1, 2, 3, 5. */
int64_t dawhikura_sums_build(const int32_t *samples, size_t minutes, int64_t *summary, size_t summary_len);

/* The sum from one minute to another, both counted: the running total up to `last` less that up to the minute before `first`. It is written to the first
 * entry of the list `sum`, and the result is 1. For each of the two totals the last entry up to there is read, and the samples after it, at most 255; nothing
 * else need be right. Refusals 16 where `first` is 0 or above `last`, or `last` above the number of minutes; 2; 5 for the summary, or for no entry in `sum`;
 * 7 and 3 for what is read. It takes some 70 ns, wherever the stretch lies. */
int64_t dawhikura_sums_between(const int32_t *samples, size_t minutes, const int64_t *summary, size_t summary_len, size_t first, size_t last, int64_t *sum,
                               size_t sum_len);

/* Puts another sample in the place of a minute's, and moves the entries that count the minute by the difference; the result is their number, which may be 0.
 * Refusals 16 for a minute that the series does not have; 2; 5; 7 for an entry that is to be moved; 3 for the old sample or the new one. */
int64_t dawhikura_sums_replace(int32_t *samples, size_t minutes, int64_t *summary, size_t summary_len, size_t minute, int32_t sample);

/* A series as a table in CSV (RFC 4180), without quotes and without a header line: for each minute a record of the minute, from 1, a comma, its sample in
 * tenths, CR and LF, the last one too. Numbers are in decimal, without a plus sign, a zero in front or a minus zero.
 *
 * Reads a table: the first entries of the list are its samples, and the result is their number, that of the records. CR LF divides records, and bytes after
 * the last one are a record that is not ended. The list needs as many entries as there are records. Refusals 1; 2; 17 for a record that is not ended, or not
 * just its minute, a comma and a number; 3, however many digits there are; 5. */
int64_t dawhikura_csv_read(const uint8_t *text, size_t text_len, int32_t *samples, size_t samples_len);

/* Writes the table of a series; reading gives the series again, and a table that was read is written as it was. The result is the number of bytes written,
 * at most 17 a minute. Refusals 1, 2, 3, then 5 for a short output. */
int64_t dawhikura_csv_write(const int32_t *samples, size_t minutes, uint8_t *out, size_t out_len);

/* How often chance draws a step. Of all series of so many minutes, each sample a whole number from 0 to `top`, entry m of the list, numbered from 1, becomes the
 * number of those whose line has m segments; there are (top + 1)^minutes of them, at most a million, and the entries add up to that. The list needs as many
 * entries as there are minutes, which is the result. Each line is drawn, in some 20 ns. Refusals 1, 24, 4, 5. */
int64_t dawhikura_step_counts(size_t minutes, uint32_t top, uint64_t smoothing, uint64_t *counts, size_t counts_len);

/* A segment of a line, as a record. */
typedef struct { uint32_t length; int64_t total; } dawhikura_segment;

/* The same check, over a run of records. */
int64_t dawhikura_series_check_segments(const int32_t *samples, size_t minutes, uint64_t smoothing, const dawhikura_segment *segments, size_t segments_len);

/* The chart of a line of so many minutes: the first minute, the last minute and the plotted level of each segment, in the first entries of the three
 * lists; the result is the number of segments. The lists need as many entries as the line has segments. A plotted level is in seconds:
 * the nearest double to total over ten times the length, ties to even. Refusals 1, 2, 6, 7, 8, then 5. */
int64_t dawhikura_chart_segments(size_t minutes, const uint32_t *lengths, size_t lengths_len, const int64_t *totals, size_t totals_len, uint32_t *firsts,
                                 size_t firsts_len, uint32_t *lasts, size_t lasts_len, double *levels, size_t levels_len);

/* The mark of one minute of that chart: 0 for a plain level, 1 for a rise and 2 for a fall, which stand at the first minute of the new level; minute 1
 * is always plain. The first two levels are the plotted ones, in seconds, before and after the step, or the plain one twice; the list needs two entries.
 * Two close levels may plot alike; the kind follows the exact ones. Refusals 1, 2, 6, 7, 8, 13, then 5. */
int64_t dawhikura_chart_mark(size_t minutes, const uint32_t *lengths, size_t lengths_len, const int64_t *totals, size_t totals_len, size_t minute,
                             double *levels, size_t levels_len);

/* Reads a sheet (README, "The sheet"): its samples, the lengths and totals of its line, and in three fields its minutes, its segments and its smoothing.
 * The result is the number of segments, 0 where no line is filed. The first three lists need as many entries as the sheet has minutes, filled or not,
 * the fields 3. Refusals 10, 1, 2, 11, 12, 4, 3, then 6 to 9 where a line is filed, then 5. */
int64_t dawhikura_sheet_read(const uint8_t *sheet, size_t sheet_len, int32_t *samples, size_t samples_len, uint32_t *lengths, size_t lengths_len,
                             int64_t *totals, size_t totals_len, uint64_t *fields, size_t fields_len);

/* Writes the sheet that holds these lists; two empty line lists mean that no line is filed. The result is the number of bytes written: 32, 4 a sample and
 * 12 a segment. Refusals 1, 2, 4, 3, then 6 to 9 unless both line lists are empty, then 5 for a short output. */
int64_t dawhikura_sheet_write(const int32_t *samples, size_t minutes, uint64_t smoothing, const uint32_t *lengths, size_t lengths_len, const int64_t *totals,
                              size_t totals_len, uint8_t *out, size_t out_len);

/* Completes a sheet: writes the same sheet with its line; one that has its line comes out unchanged. The result is the number of bytes written.
 * Refusals 10, 1, 2, 11, 12, 4, 3, then 6 to 9 where a line is filed, then 5 for a short output. */
int64_t dawhikura_sheet_complete(const uint8_t *sheet, size_t sheet_len, uint8_t *out, size_t out_len);

#ifdef __cplusplus
}
#endif

#endif
