/* Memory that tests in C and C++ lend to a call: it ends right before a page that cannot be touched, and is filled with what depends on the index. */
#ifndef LENT_H
#define LENT_H

#include <stdint.h>
#include <stdio.h>
#include <stdlib.h>
#include <sys/mman.h>
#include <unistd.h>

/* the end of at least so many bytes */
static inline uint8_t *page_end(size_t room)
{
    size_t page = (size_t)sysconf(_SC_PAGESIZE);
    room = (room + page - 1) / page * page;
    uint8_t *p = (uint8_t *)mmap(NULL, room + page, PROT_READ | PROT_WRITE, MAP_PRIVATE | MAP_ANONYMOUS, -1, 0);
    if (p == MAP_FAILED || mprotect(p + room, page, PROT_NONE) != 0) {
        perror("page_end");
        exit(2);
    }
    return p + room;
}

static inline uint32_t filler(size_t i)
{
    return 0x9e3779b9u * (uint32_t)(i + 1);
}

#endif
