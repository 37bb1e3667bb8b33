/* Runs the program on a list and takes what it prints. Assumes a Linux that has files in memory. */
#ifndef PRINTED_H
#define PRINTED_H
#include <stddef.h>
#include <stdint.h>

/* Runs the command, whose last word is NULL, with these bytes as standard input. Returns the characters printed, of which as many as there is room for are in `text`,
 * or SIZE_MAX where the program does not run or does not end by itself. */
size_t printed(char **command, const uint8_t *list, size_t length, char *text, size_t room);
#endif
