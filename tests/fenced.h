/* Memory between two pages that cannot be touched. Who includes this defines _DEFAULT_SOURCE first. */
#ifndef FENCED_H
#define FENCED_H

#include <stdint.h>
#include <stdio.h>
#include <stdlib.h>
#include <sys/mman.h>
#include <unistd.h>

struct fenced {
    uint8_t *start; /* of the bytes that can be touched */
    size_t size;
};

static inline struct fenced fence(size_t size)
{
    size_t page = (size_t)sysconf(_SC_PAGESIZE);
    size = (size + page - 1) / page * page;
    uint8_t *all = mmap(NULL, size + 2 * page, PROT_NONE, MAP_PRIVATE | MAP_ANONYMOUS, -1, 0);
    if (all == MAP_FAILED || mprotect(all + page, size, PROT_READ | PROT_WRITE) != 0) {
        perror("fence");
        exit(1);
    }
    return (struct fenced){all + page, size};
}

#endif
