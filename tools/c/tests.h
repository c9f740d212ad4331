/* What the files of the tests of the library for C share. */
#ifndef TESTS_H
#define TESTS_H

#include "edd.h"

#include <stddef.h>
#include <stdint.h>

#define CHECK(holds) check(holds, #holds, __FILE__, __LINE__)

void check(int holds, const char *what, const char *file, int at);

/* An image in memory of its own. */
typedef struct file {
    uint8_t *bytes;
    size_t length;
    edd_image image;
} file;

#define OF(it) (it)->bytes, (it)->length, &(it)->image

/* A size as the alignment of int64_t makes it: 4 on i386, 8 elsewhere. */
size_t rounded(size_t size);

/* How often memory was asked for, given back or resized. */
extern long memory_calls;

/* Messages over the images of the flow transmitter and of the valve positioner. */
void try_messages(const file *flow, const file *valve);

/* Sessions over the images of the valve positioner and of the flow transmitter; each step-th byte is damaged. */
void try_sessions(const file *valve, const file *flow, size_t step);

/* Sessions in a damaged image that was loaded: all its methods from their starts, and sessions of the undamaged one. */
void try_damaged_sessions(const uint8_t *bytes, size_t length, const edd_image *image, const file *undamaged);

#endif
