/* What the tests of pg_cells.h share. */
#ifndef SUPPORT_H
#define SUPPORT_H

#include "pg_cells.h"

/* The most bytes of a text that tells what was found. */
enum { TEXT = 512 };

/* How many answers were looked at, and how many of them were wrong. */
extern unsigned answers, wrong;

/* Makes the page at whose end cells and buffers lie, and the one after it. */
void make_pages(void);

/* Copies bytes to where the page ends. */
uint8_t *at_end(const uint8_t *bytes, size_t len);

/* A buffer of so many bytes, which end where the page ends. */
uint8_t *buffer(size_t room);

/* The bytes of hexadecimal digits, among which blanks stand. */
size_t bytes_of(const char *digits, uint8_t *out);

/* The fault of a front, by its character. */
uint32_t fault_of(char c);

/* Counts an answer, and prints what was found where it is wrong. */
void expect(bool holds, const char *what, const char *row, size_t len, const char *found);

/* What was written to a buffer: the cell, where it fits, and nothing else. */
void expect_written(const char *call, const uint8_t *cell, size_t len, const uint8_t *out, size_t room);

void try_builders(void);
void try_parts(void);
void try_readers(void);
void try_rewriting(void);
void try_walks(void);
void try_writers(void);

#endif
