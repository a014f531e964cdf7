import java.sql.*;
import java.util.*;

/** JDBC URL: metadata, prepared statements, fetch sizes, batches, errors, cancel. Prints `ok NAME`, or `bad NAME: wanted .., found ..`. */
public class Jdbc {
  interface Found { String get() throws Exception; }

  /** Tries one case: what is found, or the SQLSTATE of its error. */
  static void check(String name, String wanted, Found found) {
    String made;
    try { made = found.get(); }
    catch (SQLException fault) {
      made = "error " + fault.getSQLState() + (wanted.startsWith("error") ? "" : " " + fault.getMessage().split("\n")[0]);
    }
    catch (Exception fault) { made = fault.toString(); }
    System.out.println(wanted.equals(made) ? "ok " + name : "bad " + name + ": wanted " + wanted + ", found " + made.replace('\n', ' '));
  }

  /** The columns of these numbers of all rows. */
  static String rows(ResultSet from, int... columns) throws SQLException {
    StringJoiner made = new StringJoiner(" ");
    while (from.next()) {
      StringJoiner row = new StringJoiner("|");
      for (int it : columns) row.add(String.valueOf(from.getObject(it)));
      made.add(row.toString());
    }
    from.close();
    return made.toString();
  }

  static String prepared(Connection by) throws SQLException {
    StringJoiner made = new StringJoiner(" ");
    try (PreparedStatement it = by.prepareStatement("SELECT id, name, live, qty FROM parts WHERE id = ? OR name = ?")) {
      for (int at = 0; at < 8; at++) { it.setInt(1, 1 + at % 3); it.setString(2, "none"); made.add(rows(it.executeQuery(), 1, 2, 3, 4)); }
    }
    return made.toString();
  }

  static String described(Connection by) throws SQLException {
    StringJoiner made = new StringJoiner(" ");
    try (PreparedStatement it = by.prepareStatement("SELECT id, name, live FROM parts WHERE id < ? AND live = ? AND name = ?")) {
      ResultSetMetaData columns = it.getMetaData();
      for (int at = 1; at <= columns.getColumnCount(); at++) made.add(columns.getColumnName(at) + ":" + columns.getColumnTypeName(at));
      ParameterMetaData values = it.getParameterMetaData();
      for (int at = 1; at <= values.getParameterCount(); at++) made.add(values.getParameterTypeName(at));
    }
    return made.toString();
  }

  static String written(Connection by) throws SQLException {
    try (PreparedStatement it = by.prepareStatement("INSERT INTO orders VALUES (?, ?, ?)"); Statement other = by.createStatement()) {
      for (int at = 0; at < 3; at++) {
        it.setLong(1, 90 + at);
        if (at == 1) it.setNull(2, Types.BIGINT); else it.setLong(2, at);
        it.setInt(3, -at);
        it.addBatch();
      }
      String made = Arrays.toString(it.executeBatch());
      return made + " " + rows(other.executeQuery("SELECT no, part, n FROM orders WHERE no >= 90 ORDER BY no"), 1, 2, 3)
          + " " + other.executeUpdate("DELETE FROM orders WHERE no >= 90");
    }
  }

  static String fetched(Connection by) throws SQLException {
    by.setAutoCommit(false);
    try (Statement it = by.createStatement()) {
      it.setFetchSize(300);
      int count = 0;
      try (ResultSet rows = it.executeQuery("SELECT id FROM big ORDER BY id")) {
        while (rows.next()) count += rows.getLong(1) == count ? 1 : 1000000;
      }
      by.commit();
      return String.valueOf(count);
    } finally { by.setAutoCommit(true); }
  }

  static String inTransaction(Connection by) throws SQLException {
    by.setAutoCommit(false);
    try (Statement it = by.createStatement()) {
      String made = rows(it.executeQuery("SELECT count(*) FROM parts"), 1);
      try { it.executeUpdate("DELETE FROM orders"); made += " done"; } catch (SQLException fault) { made += " " + fault.getSQLState(); }
      by.rollback();
      return made + " " + rows(it.executeQuery("SELECT count(*) FROM orders"), 1);
    } finally { by.rollback(); by.setAutoCommit(true); }
  }

  static String timeLimit(Connection by) throws SQLException {
    long begin = System.nanoTime();
    String made = "";
    try (Statement it = by.createStatement()) {
      it.setQueryTimeout(1);
      it.executeQuery("SELECT count(*) FROM mid a, mid b, people c, people d, people e WHERE a.id + b.id = 5");
    } catch (SQLException fault) { made = fault.getSQLState(); }
    return made + " " + (System.nanoTime() - begin < 4_000_000_000L) + " " + by.isValid(2);
  }

  public static void main(String[] words) throws Exception {
    Connection by = DriverManager.getConnection(words[0]);
    DatabaseMetaData known = by.getMetaData();
    check("product", "PostgreSQL", known::getDatabaseProductName);
    check("rows", "1|bolt|10|true 2|nut|null|true 3|null|0|false",
        () -> rows(by.createStatement().executeQuery("SELECT * FROM parts ORDER BY id"), 1, 2, 3, 4));
    check("a join of three kinds", "Ada|4|true Bo, Jr.|5|false Ada|6|true", () -> rows(by.createStatement().executeQuery(
        "SELECT p.name, s.amount, t.active FROM people p JOIN sales s ON s.who = p.id JOIN staff t ON t.id = p.id ORDER BY amount"),
        1, 2, 3));
    String one = "1|bolt|true|10", two = "2|nut|true|null", three = "3|null|false|0";
    check("a prepared statement, eight times (binary from the fifth)", String.join(" ", one, two, three, one, two, three, one, two),
        () -> prepared(by));
    check("metadata of a prepared statement", "id:int8 name:text live:bool int8 bool text", () -> described(by));
    check("getTables", "big mid orders parts people sales staff",
        () -> rows(known.getTables(null, "public", "%", new String[] {"TABLE", "VIEW", "FOREIGN TABLE"}), 3));
    check("getTables by a pattern", "parts people",
        () -> rows(known.getTables(null, null, "p%", new String[] {"TABLE", "FOREIGN TABLE"}), 3));
    check("getColumns", "id|-5|int8|NO name|12|text|YES active|-7|bool|YES",
        () -> rows(known.getColumns(null, "public", "staff", "%"), 4, 5, 6, 18));
    check("getSchemas", "true", () -> String.valueOf(rows(known.getSchemas(), 1).contains("public")));
    check("getPrimaryKeys", "", () -> rows(known.getPrimaryKeys(null, "public", "parts"), 4));
    check("getImportedKeys", "", () -> rows(known.getImportedKeys(null, "public", "parts"), 4));
    check("getIndexInfo", "", () -> rows(known.getIndexInfo(null, "public", "parts", false, false), 4));
    check("getTypeInfo", "true", () -> String.valueOf(rows(known.getTypeInfo(), 1).contains("int8")));
    check("a batch", "[1, 1, 1] 90|0|0 91|null|-1 92|2|-2 3", () -> written(by));
    check("fetchSize", "2000", () -> fetched(by));
    check("a transaction", "3 0A000 3", () -> inTransaction(by));
    check("an error", "error 42703", () -> rows(by.createStatement().executeQuery("SELECT nope FROM parts"), 1));
    check("setQueryTimeout", "57014 true true", () -> timeLimit(by));
    check("getSchema and getCatalog", "public fedq", () -> by.getSchema() + " " + by.getCatalog());
    by.close();
  }
}
