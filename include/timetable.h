/* Step timetables: best timetables of plans with rules and wishes, over whole numbers.
 *
 * Link with libsolver.a, on x86-64. The library allocates nothing, keeps nothing between calls and needs at most 128 KB of
 * stack. It calls memcpy and memset and nothing else, so it runs freestanding where its host has these two. */
#ifndef TIMETABLE_H
#define TIMETABLE_H

#include <stddef.h>
#include <stdint.h>

#ifdef __cplusplus
extern "C" {
#endif

/* The least numbers of entries of the three result areas, and the most bytes of a text. */
#define TIMETABLE_TIMES 128
#define TIMETABLE_LEVELS 256
#define TIMETABLE_CHAIN 128
#define TIMETABLE_TEXT 60000

/* The outcome is a number, which is returned, and a place, which is stored in *place.
 *
 *   No.  when                                                place                written
 *   0    solved                                              count of wishes w    times: first n, one for each event;
 *                                                                                 levels: first w, in record order
 *   1    no timetable                                        count of chain steps chain: that many entries
 *   2    the text or a line has the wrong form               line, from 1         nothing
 *   3    text length, number of records, levels in one wish  line; 0 for the      nothing
 *        or levels together above what is allowed            text's length
 *   4    a number out of range, or lo > hi                   line                 nothing
 *   5    a = b                                               line                 nothing
 *   6    levels not single-peaked                            line                 nothing
 *   7    a result area too short                             0                    nothing
 *   8    a wish all of whose levels are 0                    line                 nothing
 *
 * All other entries of the three areas keep their old contents. 7 comes first, then 3 for the text's length, then the first
 * line with a fault, and in it the first fault in the order 2, 3, 4, 5, 6, 8.
 *
 * Level 0 means that a distance is not allowed: a timetable has level 1 or more at each wish. */
#define TIMETABLE_SOLVED 0
#define TIMETABLE_NONE 1
#define TIMETABLE_WRONG_FORM 2
#define TIMETABLE_TOO_MANY 3
#define TIMETABLE_OUT_OF_RANGE 4
#define TIMETABLE_SAME_EVENT 5
#define TIMETABLE_NOT_PEAKED 6
#define TIMETABLE_SHORT_AREA 7
#define TIMETABLE_NOTHING_ALLOWED 8

/* A chain is a row of bounds t(end) - t(start) <= weight that lead round and whose weights sum below zero. An entry is the
 * code of a bound, for record k (from 0) and event e:
 *
 *   2k        from a to b, weight hi          512 + 2e  from 0 to e, weight horizon
 *   2k + 1    from b to a, weight -lo         513 + 2e  from e to 0, weight 0
 *
 * Here lo and hi of a wish are the ends of the distances that it allows: the first and the last with level 1 or more. */
#define TIMETABLE_HORIZON_CODE 512

/* Solves the plan in text[0 .. n-1]. The areas hold nt, nl and nc entries.
 *
 * The times are the latest, or the earliest when asked: of the best timetables timetable_solve gives the one with the greatest
 * time of each event, so that the old image runs as long as possible, and timetable_solve_earliest the one with the least. One
 * timetable has all of these times at once. Nothing else differs between the two; a plan without timetable may have several
 * chains, and each of them may give any.
 *
 * No pointer may be null, also where a length is 0, and each is aligned for its type. The areas and *place overlap neither
 * each other nor the text, and until the call returns nothing else writes the text or touches the areas. */
uint8_t timetable_solve(const uint8_t *text, size_t n, int64_t *times, size_t nt, uint8_t *levels, size_t nl,
                        uint16_t *chain, size_t nc, size_t *place);
uint8_t timetable_solve_earliest(const uint8_t *text, size_t n, int64_t *times, size_t nt, uint8_t *levels, size_t nl,
                                 uint16_t *chain, size_t nc, size_t *place);

/* By how many ticks the chain of these codes falls short in the plan in text[0 .. n-1]: what the weights of its bounds lack to
 * zero. Whatever the times, they miss these bounds by so many ticks together at least.
 *
 * 0 where the text is refused or the codes are no chain of its plan, so 1 or more shows by itself that there is no timetable.
 * The chain that either of the two above gives for a text falls short in it by 1 or more; lend its first *place entries.
 *
 * Nothing is written. No pointer may be null, also where a length is 0, chain is aligned for its type, and until the call
 * returns nothing else writes the text or the codes. */
uint64_t timetable_ticks_short(const uint8_t *text, size_t n, const uint16_t *chain, size_t steps);

#ifdef __cplusplus
}
#endif

#endif
