"""Objects of each kind, for the server's catalogs to have rows."""

OBJECTS = r"""
CREATE ROLE "group";
CREATE ROLE member VALID UNTIL '2030-01-01';
CREATE ROLE lasting VALID UNTIL 'infinity';
GRANT "group" TO member, tester WITH ADMIN OPTION;
ALTER ROLE member SET search_path = 'a b, "c\', public;
ALTER DEFAULT PRIVILEGES GRANT SELECT ON TABLES TO member;
GRANT SET ON PARAMETER work_mem TO member;
CREATE SEQUENCE counter MINVALUE -5 CYCLE;
CREATE FUNCTION is_odd(i int4) RETURNS bool IMMUTABLE LANGUAGE sql AS 'SELECT i % 2 <> 0';
CREATE TABLE parent (id int4 PRIMARY KEY CHECK (is_odd(id)), note varchar(20) DEFAULT E'tab\t\\', mood "Mood", UNIQUE (note, id));
CREATE TABLE child (parent_id int4 REFERENCES parent ON DELETE CASCADE, EXCLUDE (parent_id WITH =)) INHERITS (parent);
CREATE TABLE parts (a int4, b text) PARTITION BY RANGE (a, b);
CREATE TABLE part PARTITION OF parts FOR VALUES FROM (1, 'a') TO (2, E'\\');
CREATE VIEW shown AS SELECT id, note FROM parent WHERE note <> E'\n' WITH CHECK OPTION;
CREATE MATERIALIZED VIEW kept AS SELECT * FROM parent;
CREATE FUNCTION ids() RETURNS SETOF int4 LANGUAGE sql BEGIN ATOMIC SELECT id + nextval('counter')::int4 FROM parent; END;
CREATE FUNCTION named(INOUT a int4, VARIADIC b text[] DEFAULT '{}', OUT c text) LANGUAGE sql AS $$ SELECT a, b[1] $$;
CREATE FUNCTION touched() RETURNS trigger LANGUAGE plpgsql AS 'BEGIN RETURN NEW; END';
CREATE TRIGGER touch_columns BEFORE UPDATE OF note, id ON parent FOR EACH ROW WHEN (NEW.id > 0) EXECUTE FUNCTION touched('a', E'b\\');
CREATE TRIGGER touch AFTER INSERT ON parent EXECUTE FUNCTION touched();
CREATE FUNCTION dropped() RETURNS event_trigger LANGUAGE plpgsql AS 'BEGIN END';
CREATE EVENT TRIGGER drop_seen ON sql_drop WHEN TAG IN ('DROP SCHEMA', 'DROP ROUTINE') EXECUTE FUNCTION dropped();
CREATE POLICY some_rows ON parent FOR UPDATE TO member, "group" USING (id > 1) WITH CHECK (true);
CREATE RULE nothing AS ON DELETE TO parent DO INSTEAD NOTHING;
INSERT INTO parent SELECT i, 'note ' || i % 9, 'Ok' FROM generate_series(1, 999, 2) i;
CREATE STATISTICS of_columns ON id, note, mood FROM parent;
CREATE STATISTICS of_expressions ON (id % 7), (note || 'x') FROM parent;
ANALYZE parent;
CREATE PUBLICATION of_columns FOR TABLE parent (id, note);
CREATE PUBLICATION of_schema FOR TABLES IN SCHEMA public;
CREATE SUBSCRIPTION none CONNECTION 'dbname=none' PUBLICATION of_columns, "of_schema" WITH (connect = false);
CREATE EXTENSION postgres_fdw;
CREATE FOREIGN DATA WRAPPER far OPTIONS (a 'b=c', "d e" E'\\');
CREATE SERVER far TYPE 't' VERSION '1' FOREIGN DATA WRAPPER far OPTIONS (host 'none');
CREATE USER MAPPING FOR member SERVER far OPTIONS ("user" 'm', password E'\t');
CREATE SERVER near FOREIGN DATA WRAPPER postgres_fdw OPTIONS (host 'none', port '1');
CREATE FOREIGN TABLE near (a int4 OPTIONS (column_name 'a, "b"'), b text) SERVER near OPTIONS (table_name '{}');
CREATE TRANSFORM FOR int4 LANGUAGE sql (FROM SQL WITH FUNCTION prsd_lextype(internal), TO SQL WITH FUNCTION int4recv(internal));
SELECT lo_from_bytea(0, decode(repeat('00ff5c', 3000), 'hex'));
SELECT pg_create_physical_replication_slot('slot', true);
SELECT pg_replication_origin_create('origin');
COMMENT ON TABLE parent IS E'\b\t\n\x0b\f\r\\ \x01\x7f é€😀 \\N';
COMMENT ON ROLE member IS E'\\.';
"""
