/*
 * The three functions that the library takes memory by, over an array of a fixed size: for firmware that
 * has no heap. A refused request is an ordinary answer: the call that made it answers EDD_MEMORY and has
 * given back what it had taken.
 *
 * Blocks lie one after the other. Each has a head with its size and whether it is taken; free blocks beside
 * each other are joined when one is looked for. One thread at a time: with more, lock around all three.
 */
#include "pool.h"

#include <string.h>

#ifndef POOL_SIZE
#define POOL_SIZE (64u * 1024u)
#endif

#define UNIT 16u /* blocks begin at multiples of it, as the library asks for */

typedef struct head {
    size_t size; /* of the block behind it, a multiple of UNIT */
    size_t taken;
} head;

static union {
    unsigned char bytes[POOL_SIZE];
    long double aligned;
} room;
#define pool room.bytes

/* Where a block would be that was refused. */
static unsigned char nothing;
static size_t limit = POOL_SIZE;
static size_t in_use, most;
static int is_ready;

static head *head_at(size_t place) { return (head *)(void *)(pool + place); }

static void get_ready(void)
{
    if (!is_ready) {
        head_at(0)->size = limit - UNIT;
        head_at(0)->taken = 0;
        is_ready = 1;
    }
}

void pool_reset(size_t bytes)
{
    limit = bytes < POOL_SIZE ? bytes / UNIT * UNIT : POOL_SIZE;
    if (limit < 2 * UNIT)
        limit = 2 * UNIT;
    in_use = most = 0;
    is_ready = 0;
}

size_t pool_in_use(void) { return in_use; }

size_t pool_most(void) { return most; }

/* Joins the free blocks behind a free one to it. */
static void join(size_t place)
{
    head *here = head_at(place);
    size_t next = place + UNIT + here->size;
    while (next < limit && !head_at(next)->taken) {
        here->size += UNIT + head_at(next)->size;
        next = place + UNIT + here->size;
    }
}

static unsigned char *take(size_t size)
{
    size_t place = 0, wanted;
    get_ready();
    if (size > limit)
        return NULL;
    wanted = (size + UNIT - 1) / UNIT * UNIT;
    while (place < limit) {
        head *here = head_at(place);
        if (!here->taken) {
            join(place);
            if (here->size >= wanted) {
                if (here->size > wanted + UNIT) {
                    head *rest = head_at(place + UNIT + wanted);
                    rest->size = here->size - wanted - UNIT;
                    rest->taken = 0;
                    here->size = wanted;
                }
                here->taken = 1;
                in_use += here->size;
                if (in_use > most)
                    most = in_use;
                return pool + place + UNIT;
            }
        }
        place += UNIT + here->size;
    }
    return NULL;
}

static head *head_of(void *block) { return (head *)(void *)((unsigned char *)block - UNIT); }

static rattle_block answer(unsigned char *block)
{
    rattle_block it;
    it.is_given = block != NULL;
    it.place = block ? block : &nothing;
    return it;
}

rattle_block rattle_alloc(size_t size, size_t alignment)
{
    (void)alignment; /* it divides 16, and so every block */
    return answer(take(size));
}

void rattle_dealloc(void *block)
{
    in_use -= head_of(block)->size;
    head_of(block)->taken = 0;
}

rattle_block rattle_realloc(void *block, size_t kept, size_t size, size_t alignment)
{
    unsigned char *other;
    (void)alignment;
    if (size <= head_of(block)->size)
        return answer(block);
    other = take(size);
    if (other) {
        memcpy(other, block, kept);
        rattle_dealloc(block);
    }
    return answer(other);
}
