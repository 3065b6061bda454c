/* Reads a cell of int4, and prints the number. */
#include <stdio.h>

#include "pg_cells.h"

int main(void)
{
    static const uint8_t cell[] = {0, 0, 1, 2};
    int32_t number;
    uint32_t fault = pgc_int4_read(cell, sizeof cell, &number);
    if (!fault) {
        printf("%d\n", (int)number);
    }
    return fault != PGC_OK;
}
