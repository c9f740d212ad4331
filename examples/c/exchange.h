/* Variables that are read from a device and written to it; see exchange.c. */
#ifndef EXCHANGE_H
#define EXCHANGE_H

#include "edd.h"

/* An image that was loaded, and what its device holds. */
typedef struct device {
    const uint8_t *bytes;
    size_t length;
    const edd_image *image;
    int64_t *values; /* image->variables of them */
} device;

/*
 * The line to a device, which is the program's: it puts the octets of a request into a frame with the number of the command,
 * sends it, and waits. Then `octets` has those of the reply without its frame, at most `room`, and it says how many they are.
 */
typedef size_t (*line)(int64_t command, uint8_t *octets, size_t count, size_t room);

/* Has the device send a variable, and sets all variables of the reply. EDD_OK, or why it did not. */
uint32_t read_variable(const device *it, uint16_t variable, line send);

/* Sends a variable to the device. EDD_OK, or why it did not. */
uint32_t write_variable(const device *it, uint16_t variable, line send);

#endif
