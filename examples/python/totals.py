"""What each person has sold, before and after a sale is added; run it in this folder, with the folder python of the clone on PYTHONPATH."""
import fedq

TOTALS = "SELECT name, sum(amount) AS total FROM people JOIN sales ON who = id GROUP BY name ORDER BY total DESC"

with fedq.connect(csv={"files": "files"}, jsonl={"docs": "docs"}, write=True) as connection:
    cursor = connection.execute(TOTALS)
    print([(column[0], column[1]) for column in cursor.description])
    print(cursor.fetchall())
    connection.execute("INSERT INTO people VALUES (?, ?, ?)", (3, "O'Neil", None))
    sales = [{"who": 3, "amount": 7}, {"who": 2, "amount": 8}]
    print(connection.executemany("INSERT INTO sales (who, amount) VALUES (:who, :amount)", sales).rowcount, "sales added")
    for name, total in connection.execute(TOTALS):
        print(f"{name}: {total}")
    try:
        connection.execute("SELECT nome FROM people")
    except fedq.ProgrammingError as fault:
        print(fault)
