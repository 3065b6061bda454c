/*
 * Rows of cells and of what C reads of them and writes, by pg_cells.h. Expected values are computed by hand from
 * PostgreSQL's formats.
 *
 * Each cell and each buffer ends where its page ends, and the page after it cannot be read or written.
 */
#include <stdio.h>

#include "support.h"

int main(void)
{
    make_pages();
    try_readers();
    try_writers();
    try_walks();
    try_builders();
    try_rewriting();
    try_parts();
    printf("c_library: %u answers, %u of them wrong\n", answers, wrong);
    return wrong != 0;
}
