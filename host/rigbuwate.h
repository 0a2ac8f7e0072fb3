/*
 * Rigbuwate: the extraction days of honey lots, planned from C.
 *
 * rigbuwate_plan takes a sheet file and writes its earliest plan. The function is proved for every input, as
 * docs/HOST.md tells; this declaration of it is not checked.
 *
 * The file: numbers of two bytes, the low one first. For each lot its first and its last day; then for each rule
 * its first lot, its length, its floor and its ceiling; then the place of the first rule (4 times the lots), how
 * many lots and how many rules there are, and HD. docs/FILES.md shows one byte by byte.
 *
 * It returns 0 where the file has a plan: then the first 2 * lots bytes of the output are the day of each lot, two
 * bytes each, the low one first, and the output's other bytes stay as they were. Else it returns the number of the
 * refusal, and no byte of the output is written. The first of these that holds is returned:
 *
 *    9  the file has more than 1,288 bytes
 *    8  it has fewer than eight, or does not end in HD
 *    9  the three numbers before HD disagree with its length, or tell of over 256 lots or over 32 rules
 *   21  a window has its first day after its last, or a day above 9,999
 *    3  a rule has no lot, or one past the last lot   } of the first rule that
 *    4  a rule's floor is above its ceiling, or its   } has such a fault: 3
 *       ceiling above 256                             } before 4
 *    7  the output has fewer than 2 * lots bytes
 *   26  there is no plan
 *
 * 512 bytes of output are enough for every file. Both pointers must point to as many bytes as their lengths say
 * (not be null, even for a length of 0), and the two must not overlap.
 *
 * The function takes no memory, needs no set-up and keeps nothing between two calls, so threads may call it at
 * once. Of the C library it needs memcpy and memset (another build may need memmove and memcmp beside them), and
 * nothing else.
 *
 * It works on the stack of its caller: give a thread that calls it 4 MiB or more. A sheet of 256 lots that is hard
 * to plan ran in 1 MiB, and overflowed three quarters of one. docs/HOST.md says more.
 */
#ifndef RIGBUWATE_H
#define RIGBUWATE_H

#include <stddef.h>
#include <stdint.h>

#ifdef __cplusplus
extern "C" {
#endif

uint32_t rigbuwate_plan(const uint8_t *file, size_t file_length, uint8_t *output, size_t output_length);

#ifdef __cplusplus
}
#endif

#endif
