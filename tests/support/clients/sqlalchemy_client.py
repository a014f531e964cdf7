"""SQLAlchemy PORT: reflection, Core, parameters, streams, writes."""
import sys
from typing import Any, List

import sqlalchemy
from cases import case

PORT = int(sys.argv[1])
engine = sqlalchemy.create_engine(f"postgresql+psycopg2://admin@127.0.0.1:{PORT}/fedq")
TABLES = ["big", "mid", "orders", "parts", "people", "sales", "staff"]


def asked(statement: Any, **values: Any) -> List[Any]:
    """The rows of a statement."""
    with engine.connect() as made:
        return [tuple(it) for it in made.execute(statement, values)]


def reflected() -> Any:
    """A join, a group and an order of two tables that were reflected."""
    known = sqlalchemy.MetaData()
    parts, orders = (sqlalchemy.Table(it, known, autoload_with=engine) for it in ("parts", "orders"))
    total = sqlalchemy.func.sum(orders.c.n).label("total")
    joined = sqlalchemy.select(parts.c.name, total).select_from(parts.join(orders, orders.c.part == parts.c.id))
    return asked(joined.where(parts.c.live == sqlalchemy.true(), parts.c.id > 0).group_by(parts.c.name).order_by(sqlalchemy.desc("total")))


def streamed() -> int:
    """The number of rows of a stream."""
    with engine.connect().execution_options(stream_results=True, max_row_buffer=100) as made:
        return sum(1 for _ in made.execute(sqlalchemy.text("SELECT id, name FROM big")))


def written() -> Any:
    """A row that is inserted, read and deleted, each done at once."""
    orders = sqlalchemy.Table("orders", sqlalchemy.MetaData(), autoload_with=engine)
    with engine.connect().execution_options(isolation_level="AUTOCOMMIT") as made:
        made.execute(orders.insert(), [{"no": 80, "part": 1, "n": None}, {"no": 81, "part": 2, "n": 3}])
        made.execute(orders.update().where(orders.c.no == 81).values(n=4))
        rows = [tuple(it) for it in made.execute(sqlalchemy.select(orders).where(orders.c.no >= 80).order_by(orders.c.no))]
        return rows, made.execute(orders.delete().where(orders.c.no >= 80)).rowcount


def inspected() -> Any:
    """What an inspector says."""
    return sqlalchemy.inspect(engine)


case(
    "text with a parameter",
    lambda: asked(sqlalchemy.text("SELECT id, name FROM parts WHERE id < :x ORDER BY id"), x=3),
    [(1, "bolt"), (2, "nut")],
)
case("tables", lambda: sorted({*inspected().get_table_names(), *inspected().get_view_names()}), TABLES)
case("has_table", lambda: [inspected().has_table(it) for it in ("parts", "nope")], [True, False])
case(
    "columns",
    lambda: [(it["name"], str(it["type"]), it["nullable"]) for it in inspected().get_columns("staff")],
    [("id", "BIGINT", False), ("name", "TEXT", True), ("active", "BOOLEAN", True)],
)
case("schemas", lambda: "public" in inspected().get_schema_names(), True)
case(
    "keys and indexes",
    lambda: (
        inspected().get_pk_constraint("parts")["constrained_columns"],
        inspected().get_foreign_keys("parts"),
        inspected().get_indexes("parts"),
    ),
    ([], [], []),
)
case("reflected and joined", reflected, [("bolt", 10)])
case("a stream", streamed, 2000)
case("writes", written, ([(80, 1, None), (81, 2, 4)], 2))
case("an error", lambda: asked(sqlalchemy.text("SELECT nope FROM parts")), "ProgrammingError 42703")
