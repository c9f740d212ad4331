/* Memory over an array of a fixed size, for the three functions that edd.h asks for; see pool.c. */
#ifndef POOL_H
#define POOL_H

#include "edd.h"

#ifdef __cplusplus
extern "C" {
#endif

/* Forgets all blocks, and has the pool give no more than so many bytes. */
void pool_reset(size_t bytes);

/* How many bytes are given out now, and how many were at most. */
size_t pool_in_use(void);
size_t pool_most(void);

#ifdef __cplusplus
}
#endif

#endif
