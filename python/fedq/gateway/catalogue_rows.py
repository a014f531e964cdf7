"""The tables of the catalogue and their rows, made of the program's objects."""
import os, sqlite3
from typing import Any, Callable, Dict, List, Optional

from .objects import Object

VERSION = "15.0 (fedq)"
OIDS = {"integer": 20, "text": 25, "boolean": 16}
SQL_NAMES = {"integer": "bigint", "text": "text", "boolean": "boolean"}
# By number: name, SQL's name, length, category.
TYPES = {16: ("bool", "boolean", 1, "B"), 17: ("bytea", "bytea", -1, "U"), 18: ("char", '"char"', 1, "S"), 19: ("name", "name", 64, "S"),
         20: ("int8", "bigint", 8, "N"),
         21: ("int2", "smallint", 2, "N"), 22: ("int2vector", "int2vector", -1, "A"), 23: ("int4", "integer", 4, "N"),
         24: ("regproc", "regproc", 4, "N"),
         25: ("text", "text", -1, "S"), 26: ("oid", "oid", 4, "N"), 700: ("float4", "real", 4, "N"),
         701: ("float8", "double precision", 8, "N"),
         1009: ("_text", "text[]", -1, "A"), 1016: ("_int8", "bigint[]", -1, "A"), 1042: ("bpchar", "character", -1, "S"),
         1043: ("varchar", "character varying", -1, "S"), 1082: ("date", "date", 4, "D"), 1114: ("timestamp",
                                                                                                 "timestamp without time zone", 8, "D"),
         1184: ("timestamptz", "timestamp with time zone", 8, "D"), 1700: ("numeric", "numeric", -1, "N"),
         2205: ("regclass", "regclass", 4, "N"),
         2249: ("record", "record", -1, "P"), 2278: ("void", "void", 4, "P")}
ARRAYS = {1009: 25, 1016: 20, 22: 21}
PUBLIC, CATALOG, SCHEMA, OWNER, FIRST = 2200, 11, 13000, 10, 16384
DATABASE = "fedq"
KIND = "r"  # (what tools list as tables; they are foreign ones)
COLUMN_TYPES = {"B": "BOOLEAN", "O": "INTEGER"}

Put = Callable[..., None]


def fill(db: sqlite3.Connection, known: List[Object], owner: str) -> None:
    """Makes the tables and fills them. The file beside this one has all tables of PostgreSQL 15's catalogues: schema, name, columns, `:B`
    for booleans, `:O` for numbers; a line that begins with two blanks goes on with the columns."""
    for schema in ("pg_catalog", "information_schema"):
        db.execute(f"ATTACH ':memory:' AS {schema}")
    with open(os.path.join(os.path.dirname(__file__), "catalogue_columns.txt")) as file:
        for line in file.read().replace("\n  ", " ").splitlines():
            schema, name, columns = line.split(" ", 2)
            parts = [it.partition(":") for it in columns.split()]
            made = ", ".join('"%s" %s' % (it, COLUMN_TYPES.get(mark, "TEXT")) for it, _, mark in parts)
            db.execute(f'CREATE TABLE {schema}."{name}" ({made})')

    def put(table: str, **values: Any) -> None:
        db.execute(f"INSERT INTO {table} ({', '.join(values)}) VALUES ({', '.join('?' * len(values))})", list(values.values()))

    put_schemas(put, owner)
    put_types(put)
    put_servers(put, known, owner)
    servers = {it.name: FIRST + it.number for it in known if it.kind == "server"}
    for it in known:
        if it.kind == "table":
            put_table(put, it, servers, owner)
            put_columns(put, it)


def put_schemas(put: Put, owner: str) -> None:
    for oid, name in ((PUBLIC, "public"), (CATALOG, "pg_catalog"), (SCHEMA, "information_schema")):
        put("pg_catalog.pg_namespace", oid=oid, nspname=name, nspowner=OWNER)
        put("information_schema.schemata", catalog_name=DATABASE, schema_name=name, schema_owner=owner)
    put("pg_catalog.pg_database", oid=5, datname=DATABASE, datdba=OWNER, encoding=6, datlocprovider="c", datistemplate=0, datallowconn=1,
        datconnlimit=-1, datcollate="C",
        datctype="C")
    put("pg_catalog.pg_am", oid=2, amname="heap", amtype="t")
    put("pg_catalog.pg_tablespace", oid=1663, spcname="pg_default")
    put("pg_catalog.pg_proc", oid=1, proname="array_in", pronamespace=CATALOG, proowner=OWNER, prokind="f", proretset=0, pronargs=1)
    put("information_schema.enabled_roles", role_name=owner)


def put_types(put: Put) -> None:
    arrays = {of: it for it, of in ARRAYS.items()}
    for oid, (name, _, size, category) in TYPES.items():
        put("pg_catalog.pg_type", oid=oid, typname=name, typnamespace=CATALOG, typowner=OWNER, typlen=size, typbyval=0 < size <= 8,
            typtype="p" if category == "P" else "b", typcategory=category, typispreferred=0, typisdefined=1, typdelim=",", typrelid=0,
            typelem=ARRAYS.get(oid, 0),
            typarray=arrays.get(oid, 0) if oid in (20, 25) else 0, typinput=1, typnotnull=0, typbasetype=0, typtypmod=-1, typndims=0,
            typcollation=0)


def put_servers(put: Put, known: List[Object], owner: str) -> None:
    """Wrappers, servers and mappings."""
    numbers = {(it.kind, it.name): FIRST + it.number for it in known}
    for it in known:
        if it.kind == "wrapper":
            put("pg_catalog.pg_foreign_data_wrapper", oid=FIRST + it.number, fdwname=it.name, fdwowner=OWNER)
        elif it.kind == "server":
            put("pg_catalog.pg_foreign_server", oid=FIRST + it.number, srvname=it.name, srvowner=OWNER,
                srvfdw=numbers.get(("wrapper", it.of), 0),
                srvoptions=options_text(it.options))
            put("information_schema.foreign_servers", foreign_server_name=it.name, foreign_data_wrapper_name=it.of)
        elif it.kind == "mapping":
            put("pg_catalog.pg_user_mappings", umid=FIRST + it.number, srvid=numbers.get(("server", it.of), 0), srvname=it.of, umuser=0,
                usename=it.name,
                umoptions=options_text(it.options))


def put_table(put: Put, it: Object, servers: Dict[str, int], owner: str) -> None:
    oid = FIRST + it.number
    put("pg_catalog.pg_class", oid=oid, relname=it.name, relnamespace=PUBLIC, reltype=0, reloftype=0, relowner=OWNER, relam=0,
        relfilenode=0, reltablespace=0, relpages=0,
        reltuples=-1, relallvisible=0, reltoastrelid=0, relhasindex=0, relisshared=0, relpersistence="p", relkind=KIND,
        relnatts=len(it.columns), relchecks=0,
        relhasrules=0, relhastriggers=0, relhassubclass=0, relrowsecurity=0, relforcerowsecurity=0, relispopulated=1, relreplident="n",
        relispartition=0)
    put("pg_catalog.pg_foreign_table", ftrelid=oid, ftserver=servers.get(it.of, 0), ftoptions=options_text(it.options))
    put("pg_catalog.pg_tables", schemaname="public", tablename=it.name, tableowner=owner)
    put("information_schema.tables", table_catalog=DATABASE, table_schema="public", table_name=it.name, table_type="BASE TABLE",
        is_insertable_into="YES", is_typed="NO")
    put("information_schema.foreign_tables", foreign_table_catalog=DATABASE, foreign_table_schema="public", foreign_table_name=it.name,
        foreign_server_name=it.of)


def put_columns(put: Put, it: Object) -> None:
    for number, (name, kind, is_not_null, _) in enumerate(it.columns, 1):
        size, is_number = TYPES[OIDS[kind]][2], kind == "integer"
        put("pg_catalog.pg_attribute", attrelid=FIRST + it.number, attname=name, atttypid=OIDS[kind], attstattarget=-1, attlen=size,
            attnum=number, attndims=0,
            attcacheoff=-1, atttypmod=-1, attbyval=size > 0, attalign="d", attstorage="p", attcompression="", attnotnull=is_not_null,
            atthasdef=0, atthasmissing=0,
            attidentity="", attgenerated="", attisdropped=0, attislocal=1, attinhcount=0, attcollation=0)
        put("information_schema.columns", table_catalog=DATABASE, table_schema="public", table_name=it.name, column_name=name,
            ordinal_position=number,
            is_nullable="NO" if is_not_null else "YES", data_type=SQL_NAMES[kind], numeric_precision=64 if is_number else None,
            numeric_scale=0 if is_number else None,
            udt_catalog=DATABASE, udt_schema="pg_catalog", udt_name=TYPES[OIDS[kind]][0], is_identity="NO", is_generated="NEVER",
            is_updatable="YES")


def options_text(options: Dict[str, str]) -> Optional[str]:
    return "{" + ",".join(f"{name}={value}" for name, value in options.items()) + "}" if options else None
