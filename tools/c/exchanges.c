/*
 * Tries messages over the library for C: random ones with what the library for Rust makes and takes of them, as
 * workbench/edd/tests/for_c writes them. Each place that a call reads or writes has just the size that it is given, so that
 * a sanitizer sees a step past it. It is linked with heap.c.
 *
 *     exchanges CASES
 */
#include "edd.h"

#include <stdio.h>
#include <stdlib.h>
#include <string.h>

static long messages, trials, failed;

#define CHECK(holds) check(holds, #holds, __LINE__)

static void check(int holds, const char *what, int at)
{
    if (!holds && failed++ < 50)
        printf("message %ld, line %d: not so: %s\n", messages, at, what);
}

/* ---- memory ---- */

static void *place(size_t size)
{
    void *it = malloc(size ? size : 1);
    if (!it) {
        printf("no memory\n");
        exit(2);
    }
    return it;
}

/* ---- the file ---- */

static void read_bytes(FILE *from, void *to, size_t count)
{
    if (count && fread(to, 1, count, from) != count) {
        printf("the file of messages ends too early\n");
        exit(2);
    }
}

static uint32_t read_number(FILE *from)
{
    uint8_t bytes[4];
    read_bytes(from, bytes, 4);
    return (uint32_t)bytes[0] | (uint32_t)bytes[1] << 8 | (uint32_t)bytes[2] << 16 | (uint32_t)bytes[3] << 24;
}

static int64_t read_value(FILE *from)
{
    uint64_t low = read_number(from), high = read_number(from);
    return (int64_t)(high << 32 | low);
}

static uint8_t *read_octets(FILE *from, size_t *count)
{
    uint8_t *it;
    *count = read_number(from);
    it = place(*count);
    read_bytes(from, it, *count);
    return it;
}

static int64_t *read_values(FILE *from, size_t *count)
{
    int64_t *it;
    size_t k;
    *count = read_number(from);
    it = place(*count * sizeof *it);
    for (k = 0; k < *count; k++)
        it[k] = read_value(from);
    return it;
}

/* ---- the calls ---- */

typedef struct image {
    uint8_t *bytes;
    size_t length;
    edd_image numbers;
} image;

#define OF(it) (it)->bytes, (it)->length, &(it)->numbers

static const edd_message reply = { 0, 0, EDD_REPLY };

static void try_readers(FILE *from, const image *it, const int64_t *host, size_t count)
{
    size_t variable, given, k;
    for (variable = 0; variable < count; variable++) {
        const size_t readers = read_number(from);
        edd_message found = { 9, 9, 9 };
        for (k = 0; k < readers; k++)
            CHECK(edd_reader(OF(it), (uint16_t)variable, host, count, k, &found, &given) == EDD_OK && given == readers
                  && found.command == 0 && found.position == 0 && found.side == EDD_REPLY);
        found.command = 9;
        given = 9;
        CHECK(edd_reader(OF(it), (uint16_t)variable, host, count, readers, &found, &given) == EDD_NO_ITEM
              && given == readers && found.command == 9);
        CHECK(edd_writer(OF(it), (uint16_t)variable, host, count, 0, &found, &given) == EDD_NO_ITEM && given == 0
              && found.command == 9);
    }
}

static void try_encoding(FILE *from, const image *it, const int64_t *device, size_t count)
{
    size_t wanted, given = 9;
    uint8_t *octets = read_octets(from, &wanted), *room = place(wanted), *small;
    CHECK(edd_encode(OF(it), &reply, device, count, room, wanted, &given) == EDD_OK && given == wanted
          && !memcmp(room, octets, wanted));
    if (wanted) {
        small = place(wanted - 1);
        memset(small, 0x55, wanted - 1);
        given = 9;
        CHECK(edd_encode(OF(it), &reply, device, count, small, wanted - 1, &given) == EDD_NO_ROOM && given == wanted
              && (wanted == 1 || small[0] == 0x55));
        free(small);
    }
    free(room);
    free(octets);
}

/* Octets of which sets are taken, into just the room for them and into too little. */
static void try_sets(FILE *from, const image *it, const int64_t *host, size_t count, const uint8_t *octets, size_t length)
{
    const size_t wanted = read_number(from);
    edd_setting *settings = place(wanted * sizeof *settings), *small;
    size_t given = 9, k;
    CHECK(edd_decode(OF(it), &reply, host, count, octets, length, settings, wanted, &given) == EDD_OK && given == wanted);
    for (k = 0; k < wanted; k++) {
        const uint32_t variable = read_number(from);
        const int64_t value = read_value(from);
        CHECK(settings[k].variable == variable && settings[k].value == value);
    }
    if (wanted) {
        small = place((wanted - 1) * sizeof *small);
        given = 9;
        CHECK(edd_decode(OF(it), &reply, host, count, octets, length, small, wanted - 1, &given) == EDD_NO_ROOM
              && given == wanted);
        free(small);
    }
    free(settings);
}

static void try_decoding(FILE *from, const image *it, const int64_t *host, size_t count)
{
    edd_setting *none = place(0);
    uint32_t left = read_number(from);
    for (; left > 0; left--) {
        size_t length, given = 77;
        uint8_t *octets = read_octets(from, &length);
        const uint32_t status = read_number(from);
        trials++;
        if (status == EDD_OK) {
            try_sets(from, it, host, count, octets, length);
        } else {
            const uint32_t told = read_number(from);
            const int is_told = status == EDD_WRONG_CONSTANT || status == EDD_EXCESS_BITS;
            CHECK(edd_decode(OF(it), &reply, host, count, octets, length, none, 0, &given) == status
                  && given == (is_told ? told : 77));
        }
        free(octets);
    }
    free(none);
}

int main(int count, char **words)
{
    FILE *from = count == 2 ? fopen(words[1], "rb") : NULL;
    int next;
    if (!from) {
        printf("usage: exchanges CASES\n");
        return 2;
    }
    while ((next = getc(from)) != EOF) {
        image it;
        int64_t *device, *host;
        size_t variables;
        ungetc(next, from);
        messages++;
        it.bytes = read_octets(from, &it.length);
        device = read_values(from, &variables);
        host = read_values(from, &variables);
        CHECK(edd_load(it.bytes, it.length, &it.numbers) == EDD_OK && it.numbers.variables == variables);
        try_readers(from, &it, host, variables);
        try_encoding(from, &it, device, variables);
        try_decoding(from, &it, host, variables);
        free(device);
        free(host);
        free(it.bytes);
    }
    fclose(from);
    printf("%ld messages, %ld trials of octets, %ld failed\n", messages, trials, failed);
    return failed != 0 || messages == 0;
}
