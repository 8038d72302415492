/* The two questions of include/dingaruho.h, answered by the plain reader. */
#ifndef PLAIN_H
#define PLAIN_H

#include <stddef.h>
#include <stdint.h>

#define PLAIN_NOT_THERE INT64_C(4294967296)

int64_t plain_ask(const uint8_t *bytes, size_t len, uint16_t point);
int64_t plain_refused_at(const uint8_t *bytes, size_t len);

#endif
