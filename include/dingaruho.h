/* Dingaruho: what a C program may ask of a picture's bytes.
 *
 * Link with libpicture.a, which bin/libpicture builds. No call allocates, keeps
 * the bytes, or writes to them; each reads the bytes once from front to back.
 * `bytes` points to `len` bytes, which stay as they are during the call. `len`
 * is the length of the whole picture, neither less nor more. `bytes` may be
 * NULL if `len` is 0.
 */
#ifndef DINGARUHO_H
#define DINGARUHO_H

#include <stddef.h>
#include <stdint.h>

#ifdef __cplusplus
extern "C" {
#endif

/* What dingaruho_ask answers where the bytes are a picture without the point. */
#define DINGARUHO_NOT_THERE INT64_C(4294967296)

/* The value of `point` in the picture.
 *
 *   -2147483648 .. 2147483647   the value
 *   4294967296                  the bytes are a picture, the point is not in it
 *   4294967296 + R              the bytes are no picture; R is the first reason
 *                               that applies:
 *       17  there are fewer than 7 bytes
 *       18  the count is above 4,096, or the width is not 0 with count 0, or not
 *           1 to 32 with another count
 *       19  count and width give another length
 *       20  a record's point is not above that of the record before it
 *       21  the width is not the least that holds all values
 *       22  a padding bit is 1
 *
 * A refusal goes before everything: a value is answered only if the whole
 * picture is sound. */
int64_t dingaruho_ask(const uint8_t *bytes, size_t len, uint16_t point);

/* Where the bytes are refused: -1 if they are a picture, else the bit place that
 * shows the reason that dingaruho_ask answers. Bit 0 is the highest of the first
 * byte.
 *
 *   17  8 * len
 *   18  32 for the count, 48 for the width
 *   19  54
 *   20  where the record begins
 *   21  48
 *   22  the padding bit */
int64_t dingaruho_refused_at(const uint8_t *bytes, size_t len);

#ifdef __cplusplus
}
#endif

#endif
