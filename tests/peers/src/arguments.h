/* Numbers in a program's arguments. */
#ifndef ARGUMENTS_H
#define ARGUMENTS_H

#include <stdint.h>

/* Whether the text is a decimal number from `least` to `most`, digits alone; then it is handed out. */
int read_number(const char *text, uint64_t least, uint64_t most, uint64_t *number);

#endif
