/* Pages, bytes and what is counted. */
#define _GNU_SOURCE
#include <stdio.h>
#include <stdlib.h>
#include <string.h>
#include <sys/mman.h>
#include <unistd.h>

#include "support.h"

unsigned answers, wrong;
static uint8_t *end;
static size_t page;

void make_pages(void)
{
    page = (size_t)sysconf(_SC_PAGESIZE);
    uint8_t *pages = mmap(NULL, 2 * page, PROT_READ | PROT_WRITE, MAP_PRIVATE | MAP_ANONYMOUS, -1, 0);
    if (pages == MAP_FAILED || mprotect(pages + page, page, PROT_NONE)) {
        perror("c_library: no pages");
        exit(2);
    }
    end = pages + page;
}

uint8_t *at_end(const uint8_t *bytes, size_t len)
{
    memset(end - page, 0xee, page);
    return len ? memcpy(end - len, bytes, len) : end;
}

void expect(bool holds, const char *what, const char *row, size_t len, const char *found)
{
    answers++;
    if (!holds) {
        wrong++;
        printf("%s of %s at %zu bytes: %s\n", what, row, len, found);
    }
}

size_t bytes_of(const char *digits, uint8_t *out)
{
    size_t len = 0;
    for (; *digits; digits += *digits == ' ' ? 1 : 2) {
        unsigned byte;
        if (*digits != ' ' && sscanf(digits, "%2x", &byte) == 1) {
            out[len++] = (uint8_t)byte;
        }
    }
    return len;
}

uint32_t fault_of(char c)
{
    switch (c) {
    case '.': return PGC_OK;
    case 's': return PGC_SIZE;
    case 'u': return PGC_UTF8;
    case 'c': return PGC_COUNT;
    case 'd': return PGC_DIMENSIONS;
    case 'v': return PGC_TEXT_VERSION;
    case 'w': return PGC_WRONG_TYPE;
    case 'f': return PGC_FAMILY;
    case 'n': return PGC_NETMASK;
    case 'a': return PGC_ADDRESS_LENGTH;
    default: return UINT32_MAX;
    }
}

uint8_t *buffer(size_t room)
{
    uint8_t bytes[128];
    memset(bytes, 0x5a, sizeof bytes);
    return at_end(bytes, room);
}

void expect_written(const char *call, const uint8_t *cell, size_t len, const uint8_t *out, size_t room)
{
    uint8_t expected[128];
    memset(expected, 0x5a, sizeof expected);
    if (len <= room) {
        memcpy(expected, cell, len);
    }
    expect(!memcmp(out, expected, room) && out[-1] == 0xee, call, "a buffer", room, "another content");
}
