"""The trial of scripts/server-test with the tables and views of pg_catalog and information_schema."""
import concurrent.futures
import os
from dataclasses import dataclass

from server_names import CONVERTED, VECTORS
from server_objects import OBJECTS
from server_trials import CopyTrial, Counts, Table

# Each table and view with the columns that have a conversion, their types by short names, and those of them that are vectors. Two
# columns of pg_stats_ext have arrays of two dimensions, which are no lists.
COLUMNS = rf"""
SELECT c.oid::regclass, string_agg(quote_ident(attname), ',' ORDER BY attnum),
    string_agg(regexp_replace(coalesce(element.typname || '[]', base.typname), '^char\M', '"char"'), ',' ORDER BY attnum),
    string_agg(quote_ident(attname), ',') FILTER (WHERE base.typname IN {VECTORS})
FROM pg_class c JOIN pg_attribute ON attrelid = c.oid JOIN pg_type it ON it.oid = atttypid
    JOIN pg_type base ON base.oid = CASE it.typtype WHEN 'd' THEN it.typbasetype ELSE it.oid END
    LEFT JOIN pg_type element ON element.typarray = base.oid
WHERE relkind IN ('r', 'v') AND relnamespace IN ('pg_catalog'::regnamespace, 'information_schema'::regnamespace)
    AND attnum > 0 AND NOT attisdropped AND NOT (relname = 'pg_stats_ext' AND attname IN ('most_common_vals', 'most_common_val_nulls'))
    AND (base.typname IN {(*CONVERTED, *VECTORS)} OR element.typname IN {CONVERTED})
GROUP BY c.oid ORDER BY c.oid::regclass::text
"""


@dataclass(frozen=True)
class Catalog:
    """A table or a view of the server's own: what is taken of it, and the table that this is put in."""
    name: str
    columns: list
    types: list
    vectors: list
    table: str


class Catalogs:
    """The trials of the server's own tables and views."""

    def __init__(self, server, programs):
        self.server, self.programs = server, programs
        self.tables = self.columns = self.cells = self.without_rows = self.left_out = 0

    def listed(self):
        """The tables and views."""
        for place, line in enumerate(self.server.psql(COLUMNS).decode().splitlines()):
            name, *lists = line.split("|")
            yield Catalog(name, *(it.split(",") if it else [] for it in lists), f"catalog_{place}")

    def trial(self, catalog, table):
        """The trial of a table that was made of a catalog."""
        cells = len(catalog.columns) * int(self.server.psql(f"SELECT count(*) FROM {table}"))
        return CopyTrial(self.server, self.programs, Table(table, catalog.types, cells), catalog.name)

    def without_empty(self, catalog):
        """The table of the rows that have no empty vector, and how many others there are.

        The server does not take these in a binary COPY, its own too, so they are read and not written.
        """
        is_empty = " OR ".join(f"{it}::text = ''" for it in catalog.vectors)
        count = int(self.server.psql(f"SELECT count(*) FROM {catalog.table} WHERE {is_empty}")) if is_empty else 0
        if not count:
            return catalog.table, 0
        table = f"{catalog.table}_full"
        self.server.psql(f"CREATE TABLE {table} AS SELECT * FROM {catalog.table} WHERE ({is_empty}) IS NOT TRUE")
        return table, count

    def try_catalog(self, catalog):
        """The trial of a table or a view as it is now, since views change: the counts, the cells, and the rows that are not written."""
        counts = Counts()
        try:
            self.server.psql(f"CREATE TABLE {catalog.table} AS SELECT {', '.join(catalog.columns)} FROM {catalog.name}")
            read = self.trial(catalog, catalog.table)
            read.read()
            counts.add(read.counts)
            table, left_out = self.without_empty(catalog)
            written = self.trial(catalog, table)
            written.write(self.server.psql(f"COPY {table} TO STDOUT"))
            counts.add(written.counts)
            return counts, read.table.cells, left_out
        except RuntimeError as error:
            counts.differences.append(f"{catalog.name}: {error}")
            return counts, 0, 0

    def run(self):
        """The trials of all, side by side: the counts."""
        self.server.psql(*OBJECTS.strip().split(";\n"))
        total, catalogs = Counts(), list(self.listed())
        self.tables, self.columns = len(catalogs), sum(len(it.columns) for it in catalogs)
        with concurrent.futures.ThreadPoolExecutor(os.cpu_count()) as pool:
            for counts, cells, left_out in pool.map(self.try_catalog, catalogs):
                total.add(counts)
                self.cells += cells
                self.without_rows += not cells
                self.left_out += left_out
        return total
