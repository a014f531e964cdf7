"""The data sets of `tests/first_hour`, as a data team has them, made by Python's standard library: the same bytes with each run."""
import csv, gzip, io, json, pathlib, random, sqlite3
from decimal import Decimal
from typing import List, Sequence

COUNTRIES = ["Norge", "Danmark", "Österreich", "España", "Sverige"]
PLACES = ["Ålesund", "Bergen", "Düsseldorf", "Málaga", "Oslo", "Wien"]
NORTHWIND = """
CREATE TABLE Customers (CustomerID TEXT PRIMARY KEY, CompanyName TEXT NOT NULL, Country TEXT);
CREATE TABLE Employees (EmployeeID INTEGER PRIMARY KEY AUTOINCREMENT, LastName TEXT, Photo BLOB);
CREATE TABLE Products (ProductID INTEGER PRIMARY KEY, ProductName TEXT, UnitPrice NUMERIC DEFAULT 0, Discontinued TEXT);
CREATE TABLE Orders (OrderID INTEGER PRIMARY KEY, CustomerID TEXT REFERENCES Customers, EmployeeID INTEGER, OrderDate DATETIME,
                     Freight NUMERIC);
CREATE TABLE "Order Details" (OrderID INTEGER, ProductID INTEGER, UnitPrice NUMERIC, Quantity INTEGER, PRIMARY KEY (OrderID, ProductID));
CREATE TABLE Log (at TEXT);
CREATE INDEX OrdersOfCustomer ON Orders (CustomerID);
CREATE VIEW "Order Subtotals" AS SELECT OrderID, sum(Quantity) AS Pieces FROM "Order Details" GROUP BY OrderID;
CREATE TRIGGER OrderLogged AFTER INSERT ON Orders BEGIN INSERT INTO Log VALUES (new.OrderDate); END;
"""
CHINOOK = """
CREATE TABLE Artist (ArtistId INTEGER PRIMARY KEY, Name NVARCHAR(120));
CREATE TABLE Album (AlbumId INTEGER PRIMARY KEY, Title NVARCHAR(160), ArtistId INTEGER NOT NULL REFERENCES Artist);
CREATE TABLE Track (TrackId INTEGER PRIMARY KEY, Name NVARCHAR(200), AlbumId INTEGER, Milliseconds INTEGER, UnitPrice NUMERIC(10,2));
CREATE TABLE InvoiceLine (InvoiceLineId INTEGER PRIMARY KEY, TrackId INTEGER, UnitPrice NUMERIC(10,2), Quantity INTEGER);
CREATE INDEX IFK_AlbumArtistId ON Album (ArtistId);
CREATE VIEW LongTracks AS SELECT TrackId, Name FROM Track WHERE Milliseconds > 300000;
CREATE TRIGGER NoFreeLine BEFORE INSERT ON InvoiceLine WHEN new.Quantity < 1 BEGIN SELECT RAISE(ABORT, 'quantity'); END;
"""


def csv_text(rows: Sequence[Sequence[object]], mark: str = ",", end: str = "\n") -> str:
    """Rows as a CSV file."""
    file = io.StringIO(newline="")
    csv.writer(file, delimiter=mark, lineterminator=end).writerows(rows)
    return file.getvalue()


def cents(chance: random.Random, most: int) -> Decimal:
    """An amount with cents, of several lengths."""
    return Decimal(chance.randrange(most)).scaleb(-2)


def day(chance: random.Random) -> "tuple":
    """A day of 2024 or 2025: its year, month and day."""
    return chance.choice((2024, 2025)), chance.randint(1, 12), chance.randint(1, 28)


def make(folder: pathlib.Path, name: str, raw: bytes) -> None:
    """Writes a file, and its folder."""
    (folder / name).parent.mkdir(parents=True, exist_ok=True)
    (folder / name).write_bytes(raw)


def make_csv(folder: pathlib.Path, chance: random.Random) -> None:
    """Trips with decimals, orders with empty cells, semicolons in a legacy encoding, TABs, and a gzip file."""
    trips: List[tuple] = [("trip_id", "started", "zone", "distance", "fare", "payment")]
    for number in range(1, 1201):
        at = "{}-{:02}-{:02} {:02}:{:02}:00".format(*day(chance), chance.randrange(24), chance.randrange(60))
        payment = chance.choice(("card", "card", "cash", "invoice"))
        trips.append((number, at, chance.choice(PLACES), f"{chance.randrange(400) / 10:.1f}", cents(chance, 20000), payment))
    make(folder, "trips/trips.csv", csv_text(trips).encode())
    orders: List[tuple] = [("order_id", "customer", "status", "coupon", "amount", "day")]
    for number in range(1, 601):
        coupon = chance.choice(("", "", "SPRING", "VIP"))
        amount = "" if number % 37 == 0 else cents(chance, 90000)
        status = chance.choice(("new", "paid", "sent"))
        orders.append((number, f"C{chance.randint(1, 40):03}", status, coupon, amount, "{}-{:02}-{:02}".format(*day(chance))))
    make(folder, "orders/orders.csv", csv_text(orders).encode())
    sales: List[tuple] = [("Nummer", "Ort", "Umsatz")]
    sales += [(number, chance.choice(PLACES), str(cents(chance, 500000)).replace(".", ",")) for number in range(1, 301)]
    make(folder, "sales/umsatz.csv", csv_text(sales, ";", "\r\n").encode("cp1252"))
    stations = [("code", "prefix", "station", "riders")]
    stations += [(f"{number:03}", f"+{40 + number % 9}", f"Station {number}", chance.randrange(9000)) for number in range(1, 41)]
    make(folder, "stations/stations.tsv", csv_text(stations, "\t").encode())
    visits = [("visitor", "page", "seconds")]
    visits += [(f"v{chance.randint(1, 90)}", chance.choice(("/", "/cart", "/help")), chance.randrange(600)) for _ in range(800)]
    make(folder, "visits/visits.csv.gz", gzip.compress(csv_text(visits).encode(), mtime=0))


def make_others(folder: pathlib.Path, chance: random.Random) -> None:
    """JSON, dates of two forms, a byte order mark with CR LF, and a ragged file."""
    events = [{"id": number, "user": {"id": chance.randint(1, 30), "country": chance.choice(COUNTRIES)},
               "basket": {"pieces": chance.randint(1, 9), "price": float(cents(chance, 9900))}, "tags": ["a"] * (number % 3)}
              for number in range(1, 401)]
    make(folder, "events/events.jsonl", "".join(json.dumps(it, ensure_ascii=False) + "\n" for it in events).encode())
    products = [{"sku": f"{number:05}", "category": chance.choice(("book", "game", "tool")), "price": float(cents(chance, 30000)),
                 "in_stock": number % 4 > 0} for number in range(1, 121)]
    make(folder, "products/products.json", json.dumps(products, indent=2).encode())
    bookings: List[tuple] = [("booking", "arrival", "made_on", "nights")]
    for number in range(1, 301):
        year, month, date = day(chance)
        bookings.append((number, f"{date:02}/{month:02}/{year}", "{}-{:02}-{:02}".format(*day(chance)), chance.randint(1, 14)))
    make(folder, "bookings/bookings.csv", csv_text(bookings).encode())
    fees: List[tuple] = [("fee", "share", "day", "at")]
    for number in range(1, 41):
        date, at = f"2024/{number % 12 + 1}/{number % 28 + 1}", f"{number % 24}:{number + 10}"
        fees.append((f"${chance.randrange(3000)}.50", f"{number}%", date, at))
    make(folder, "fees/fees.csv", csv_text(fees).encode())
    contacts = [("customer", "manager")] + [(f"C{number:03}", chance.choice(("Ása", "Bo", "Çelik"))) for number in range(1, 46)]
    make(folder, "contacts/contacts.csv", b"\xef\xbb\xbf" + csv_text(contacts, end="\r\n").encode())
    survey = [(number, chance.choice(PLACES), chance.randint(1, 5)) for number in range(1, 101)]
    lines = ["person,place,score"] + [f"{person},{place}" + f",{score}" * (person % 7 > 0) for person, place, score in survey]
    make(folder, "survey/survey.csv", ("\n".join(lines) + "\n").encode())


def make_databases(folder: pathlib.Path, chance: random.Random) -> None:
    """A database like Northwind, and one like Chinook, with views, indexes and triggers."""
    base = sqlite3.connect(folder / "northwind.db")
    base.executescript(NORTHWIND)
    customers = [(f"C{it:03}", f"Firma {it}", chance.choice(COUNTRIES)) for it in range(1, 51)]
    base.executemany("INSERT INTO Customers VALUES (?, ?, ?)", customers)
    base.executemany("INSERT INTO Employees (LastName, Photo) VALUES (?, ?)", [("Åberg", b"\x00\xff"), ("Dupont", None)])
    products = [(it, f"Product {it}", float(cents(chance, 9000)), "0") for it in range(1, 31)]
    base.executemany("INSERT INTO Products VALUES (?, ?, ?, ?)", products)
    for number in range(1, 201):
        date, freight = "{}-{:02}-{:02}".format(*day(chance)), float(cents(chance, 5000))
        base.execute("INSERT INTO Orders VALUES (?, ?, ?, ?, ?)", (number, f"C{chance.randint(1, 40):03}", 1 + number % 2, date, freight))
        products = chance.sample(range(1, 31), 3)
        details = [(number, it, float(cents(chance, 9000)), chance.randint(1, 20)) for it in products]
        base.executemany('INSERT INTO "Order Details" VALUES (?, ?, ?, ?)', details)
    base.commit()
    base.close()
    base = sqlite3.connect(folder / "chinook.db")
    base.executescript(CHINOOK)
    base.executemany("INSERT INTO Artist VALUES (?, ?)", [(it, f"Artist {it}") for it in range(1, 13)])
    base.executemany("INSERT INTO Album VALUES (?, ?, ?)", [(it, f"Album {it}", chance.randint(1, 12)) for it in range(1, 31)])
    tracks = [(it, f"Track {it}", chance.randint(1, 30), chance.randrange(100000, 600000), chance.choice((0.99, 1.99)))
              for it in range(1, 201)]
    base.executemany("INSERT INTO Track VALUES (?, ?, ?, ?, ?)", tracks)
    lines = [(it, chance.randint(1, 200), chance.choice((0.99, 1.99)), chance.randint(1, 3)) for it in range(1, 501)]
    base.executemany("INSERT INTO InvoiceLine VALUES (?, ?, ?, ?)", lines)
    base.commit()
    base.close()


def make_all(folder: pathlib.Path) -> None:
    """Makes all data sets in a folder."""
    chance = random.Random(2024)
    for made in (make_csv, make_others, make_databases):
        made(folder, chance)
