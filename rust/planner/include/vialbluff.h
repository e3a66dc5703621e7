/* The session planner's calls, for C. Link target/staticlib/libvialbluff.a.
 *
 * Every call takes the bytes of a plan file and fills `out`:
 *   success:  out[0] = 0, then the values named at the call, the rest 0
 *   refusal:  out[0] = its number, out[1] = its figure, the rest 0
 *
 *   number  figure              condition
 *   1       0                   length 0 or over 2175
 *   2       line, from 1        line absent, ill formed, or bytes past the last line
 *   3       line                a value out of range
 *   10      line                a group of one child
 *   11      line                more units of a device than it has
 *   4       0                   the nodes are not one whole term
 *   5       0                   some variant has an activity twice
 *   6       0                   more than 4096 variants
 *   9       0                   no such variant
 *   7       0                   more active schedules than the cap
 *   8       cells or bytes      area too short
 *
 * A schedule is its present activities and their starts. One that is active for several variants counts once, under the
 * lowest of them.
 *
 * A refusal changes no area. Success changes only what is named at the call. A timetable has a start for each of 24
 * activity numbers, and VIALBLUFF_ABSENT at an absent one. No call keeps a pointer.
 *
 * The caller gives pointers that are valid for the lengths given with them and aligned for their types (also where a
 * length is 0: not NULL), areas that do not overlap, and 640 KiB of stack: LIST and BEST keep the order of each variant
 * there. That the stack is enough is tested, not proved.
 */
#ifndef VIALBLUFF_H
#define VIALBLUFF_H

#include <stddef.h>
#include <stdint.h>

#define VIALBLUFF_PLACES 24
#define VIALBLUFF_ABSENT 4294967295u

#ifdef __cplusplus
extern "C" {
#endif

/* out[1] activities, out[2] nodes, out[3] variants. */
void vialbluff_read(const uint8_t *file, size_t file_len, uint64_t out[4]);

/* Writes the variant as a plan file at the front of the area; out[1] its bytes. */
void vialbluff_write(const uint8_t *file, size_t file_len, uint32_t variant,
                     uint8_t *area, size_t area_len, uint64_t out[4]);

/* out[1] 1 if the timetable is a feasible schedule of the variant, else 0. */
void vialbluff_check(const uint8_t *file, size_t file_len, uint32_t variant,
                     const uint32_t starts[VIALBLUFF_PLACES], uint64_t out[4]);

/* Writes a row for each active schedule at the front of the area: the lowest variant that has it and then a start for
 * each activity; out[1] the rows. They stand by variant, then by the start of activity 0, then of activity 1 and so on
 * through the present ones. */
void vialbluff_list(const uint8_t *file, size_t file_len, uint32_t cap,
                    uint32_t *area, size_t area_len, uint64_t out[4]);

/* Writes the schedule of the first shortest of LIST's rows into `starts`; out[1] its variant, out[2] its makespan,
 * out[3] the number of rows, out[4] how many of them are shortest. */
void vialbluff_best(const uint8_t *file, size_t file_len, uint32_t cap,
                    uint32_t starts[VIALBLUFF_PLACES], uint64_t out[5]);

#ifdef __cplusplus
}
#endif

#endif
