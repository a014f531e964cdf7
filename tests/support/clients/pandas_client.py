"""pandas PORT: read_sql, chunks, tables, types, to_sql."""
import sys, warnings
from typing import Any

import pandas, psycopg2, sqlalchemy
from cases import case

PORT = int(sys.argv[1])
warnings.simplefilter("ignore")
engine = sqlalchemy.create_engine(f"postgresql+psycopg2://admin@127.0.0.1:{PORT}/fedq")


def read(sql: Any, by: Any = engine, **how: Any) -> Any:
    """The columns of a query, each a list, with NULL as None."""
    frame = pandas.read_sql(sql, by, **how)
    return frame.astype(object).where(frame.notna(), None).to_dict("list")


def appended() -> Any:
    """Rows that to_sql appends, read and taken away again."""
    with engine.connect().execution_options(isolation_level="AUTOCOMMIT") as made:
        pandas.DataFrame({"no": [85, 86], "part": [1, 2], "n": [7, 8]}).to_sql("orders", made, if_exists="append", index=False)
        rows = read("SELECT no, part, n FROM orders WHERE no >= 85 ORDER BY no")
        made.execute(sqlalchemy.text("DELETE FROM orders WHERE no >= 85"))
    return rows


def by_psycopg2() -> Any:
    """read_sql over a connection of psycopg2."""
    with psycopg2.connect(host="127.0.0.1", port=PORT, user="admin", dbname="fedq") as made:
        return read("SELECT id FROM parts WHERE id < %s ORDER BY id", made, params=(3,))


case(
    "read_sql",
    lambda: read("SELECT id, name, live FROM parts ORDER BY id"),
    {"id": [1, 2, 3], "name": ["bolt", "nut", None], "live": [True, True, False]},
)
case(
    "types",
    lambda: {k: str(v) for k, v in pandas.read_sql("SELECT id, name, live FROM parts", engine).dtypes.items()},
    {"id": "int64", "name": "object", "live": "bool"},
)
case(
    "parameters",
    lambda: read(
        sqlalchemy.text("SELECT name, amount FROM people JOIN sales ON who = id WHERE amount > :a ORDER BY amount"), params={"a": 4}
    ),
    {"name": ["Bo, Jr.", "Ada"], "amount": [5, 6]},
)
case("chunks", lambda: [len(it) for it in pandas.read_sql("SELECT id FROM big ORDER BY id", engine, chunksize=900)], [900, 900, 200])
case("read_sql_table", lambda: pandas.read_sql_table("people", engine).shape, (3, 3))
case("over psycopg2", by_psycopg2, {"id": [1, 2]})
case("to_sql", appended, {"no": [85, 86], "part": [1, 2], "n": [7, 8]})
