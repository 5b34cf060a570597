/* The one call of the pairing book that C reaches: the check of a line. */
#ifndef PAIRING_H
#define PAIRING_H

#include <stddef.h>
#include <stdint.h>

/*
 * Checks one line of a log or a sheet against the refusals 4, 5, 6, 8, 9 and 10, in that order.
 * Answers 65,536 times the refusal's number, plus its place counted from the line's first byte;
 * 0 where the line is granted. The line is given without its line feed, and is only read.
 * `line` is not null, also where `length` is 0.
 */
uint32_t pairing_check_line(const uint8_t *line, size_t length);

#endif
