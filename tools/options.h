/* Words of a command line. */
#ifndef TOOLS_OPTIONS_H
#define TOOLS_OPTIONS_H

#include <stdbool.h>
#include <stdint.h>

/* A whole number of digits alone, from least to most. */
bool whole_number(const char *word, uint32_t least, uint32_t most, uint32_t *out);

/* One number for all three, or three parted by commas. */
bool three_numbers(const char *word, uint32_t least, uint32_t most, uint32_t out[3]);

/* A weight as a field of a sheet's line S. */
typedef char weight_field[16];

/* One weight for all three, or three parted by commas: each a decimal number from 0, or a field as the sheet has it (w3, h3e99999a). A whole number to 255 becomes w,
 * any other the bits of the nearest f32. */
bool three_weights(const char *word, weight_field out[3]);

#endif
