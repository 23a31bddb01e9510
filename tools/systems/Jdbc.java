import java.io.BufferedReader;
import java.io.IOException;
import java.io.InputStreamReader;
import java.io.PrintStream;
import java.math.BigDecimal;
import java.nio.charset.StandardCharsets;
import java.sql.Connection;
import java.sql.DriverManager;
import java.sql.PreparedStatement;
import java.sql.ResultSet;
import java.sql.ResultSetMetaData;
import java.sql.SQLException;
import java.sql.Types;
import java.util.ArrayList;
import java.util.Arrays;
import java.util.HashMap;
import java.util.List;
import java.util.Map;

/**
 * Performs statements over JDBC for tools/systems/jdbc.py, from which it reads them, one a line, its words with tabs between.
 * Each is answered with a line. A backslash stands before t, n, r and itself where those would be a tab, an end of line or a backslash.
 */
public final class Jdbc {
    private static final int SECONDS = 20;
    private final Map<String, ResultSet> cursors = new HashMap<>();
    private final Map<String, PreparedStatement> statements = new HashMap<>();
    private Connection connection;

    public static void main(String[] words) throws IOException {
        Jdbc jdbc = new Jdbc();
        BufferedReader asked = new BufferedReader(new InputStreamReader(System.in, StandardCharsets.ISO_8859_1));
        PrintStream answers = new PrintStream(System.out, false, StandardCharsets.ISO_8859_1);
        for (String line = asked.readLine(); line != null; line = asked.readLine()) {
            answers.println(escaped(jdbc.answered(Arrays.stream(line.split("\t", -1)).map(Jdbc::unescaped).toArray(String[]::new))));
            answers.flush();
        }
    }

    private static String escaped(List<String> words) {
        List<String> found = new ArrayList<>();
        for (String word : words) {
            found.add(word.replace("\\", "\\\\").replace("\t", "\\t").replace("\n", "\\n").replace("\r", "\\r"));
        }
        return String.join("\t", found);
    }

    private static String unescaped(String word) {
        StringBuilder found = new StringBuilder();
        for (int at = 0; at < word.length(); at++) {
            char next = word.charAt(at);
            if (next == '\\') {
                at++;
                next = "tnr".indexOf(word.charAt(at)) < 0 ? word.charAt(at) : "\t\n\r".charAt("tnr".indexOf(word.charAt(at)));
            }
            found.append(next);
        }
        return found.toString();
    }

    private List<String> answered(String[] words) {
        try {
            return performed(words);
        } catch (SQLException fault) {
            return List.of("refused", fault.getSQLState() == null ? "HY000" : fault.getSQLState(), String.valueOf(fault.getMessage()));
        } catch (RuntimeException | StackOverflowError fault) {
            return List.of("refused", "HY000", String.valueOf(fault));
        }
    }

    private List<String> performed(String[] words) throws SQLException {
        switch (words[0]) {
            case "connect":
                connection = DriverManager.getConnection(words[1], words[2], words[3]);
                connection.setAutoCommit(false);
                return List.of("done");
            case "version":
                return List.of("done", connection.getMetaData().getDatabaseProductVersion());
            case "change":
                return changed(words);
            case "rows":
                return rows(words);
            case "open":
                return opened(words);
            case "fetch":
                return fetched(words);
            case "delete":
                cursors.get(words[1]).deleteRow();
                return List.of("done", "1");
            case "update":
                return updated(words);
            case "close":
                cursors.remove(words[1]);
                statements.remove(words[1]).close();
                return List.of("done");
            case "commit":
                return finished(true);
            case "rollback":
                return finished(false);
            case "disconnect":
                try {
                    finished(false);
                } finally {
                    connection.close();
                }
                return List.of("done");
            default:
                throw new IllegalArgumentException(words[0]);
        }
    }

    /** Ends the transaction, with all cursors. */
    private List<String> finished(boolean keeps) throws SQLException {
        for (PreparedStatement statement : statements.values()) {
            statement.close();
        }
        cursors.clear();
        statements.clear();
        if (keeps) {
            connection.commit();
        } else {
            connection.rollback();
        }
        return List.of("done");
    }

    /** Sets parameters from words on: for each its kind, N or C, and its value; a null has the kind in small letters. */
    private static void set(PreparedStatement statement, String[] words, int from) throws SQLException {
        statement.setQueryTimeout(SECONDS);
        for (int at = from; at < words.length; at += 2) {
            int place = (at - from) / 2 + 1;
            switch (words[at]) {
                case "N":
                    statement.setBigDecimal(place, new BigDecimal(words[at + 1]));
                    break;
                case "C":
                    statement.setString(place, words[at + 1]);
                    break;
                default:
                    statement.setNull(place, words[at].equals("n") ? Types.NUMERIC : Types.VARCHAR);
            }
        }
    }

    private List<String> changed(String[] words) throws SQLException {
        try (PreparedStatement statement = connection.prepareStatement(words[1])) {
            set(statement, words, 2);
            return List.of("done", String.valueOf(statement.executeUpdate()));
        }
    }

    private List<String> rows(String[] words) throws SQLException {
        try (PreparedStatement statement = connection.prepareStatement(words[1])) {
            set(statement, words, 2);
            ResultSet rows = statement.executeQuery();
            List<String> found = heading(rows);
            while (rows.next()) {
                add(found, rows);
            }
            return found;
        }
    }

    private List<String> opened(String[] words) throws SQLException {
        int type = words[2].equals("scrolls") ? ResultSet.TYPE_SCROLL_INSENSITIVE : ResultSet.TYPE_FORWARD_ONLY;
        int use = words[3].equals("changes") ? ResultSet.CONCUR_UPDATABLE : ResultSet.CONCUR_READ_ONLY;
        PreparedStatement statement = connection.prepareStatement(words[4], type, use, ResultSet.CLOSE_CURSORS_AT_COMMIT);
        try {
            statement.setCursorName(words[1]);
            set(statement, words, 5);
            cursors.put(words[1], statement.executeQuery());
            statements.put(words[1], statement);
            return List.of("done");
        } catch (SQLException fault) {
            statement.close();
            throw fault;
        }
    }

    private List<String> fetched(String[] words) throws SQLException {
        ResultSet rows = cursors.get(words[1]);
        List<String> found = heading(rows);
        if (moved(rows, words[2], words[3].isEmpty() ? 0 : (int) Math.max(-1000000000L, Math.min(1000000000L, Long.parseLong(words[3]))))) {
            add(found, rows);
        }
        return found;
    }

    private static boolean moved(ResultSet rows, String orientation, int amount) throws SQLException {
        switch (orientation) {
            case "PRIOR":
                return rows.previous();
            case "FIRST":
                return rows.first();
            case "LAST":
                return rows.last();
            case "ABSOLUTE":
                return rows.absolute(amount);
            case "RELATIVE":
                return rows.relative(amount);
            default:
                return rows.next();
        }
    }

    private List<String> updated(String[] words) throws SQLException {
        ResultSet rows = cursors.get(words[1]);
        for (int at = 2; at < words.length; at += 3) {
            switch (words[at + 1]) {
                case "N":
                    rows.updateBigDecimal(words[at], new BigDecimal(words[at + 2]));
                    break;
                case "C":
                    rows.updateString(words[at], words[at + 2]);
                    break;
                default:
                    rows.updateNull(words[at]);
            }
        }
        rows.updateRow();
        return List.of("done", "1");
    }

    /** The kinds of the columns; rows follow, value by value. */
    private static List<String> heading(ResultSet rows) throws SQLException {
        ResultSetMetaData columns = rows.getMetaData();
        List<String> found = new ArrayList<>(List.of("done", String.valueOf(columns.getColumnCount())));
        for (int column = 1; column <= columns.getColumnCount(); column++) {
            found.add(isText(columns.getColumnType(column)) ? "text" : "number");
        }
        return found;
    }

    private static boolean isText(int type) {
        return type == Types.CHAR || type == Types.VARCHAR || type == Types.LONGVARCHAR || type == Types.CLOB || type == Types.NVARCHAR || type == Types.NCHAR;
    }

    private static void add(List<String> found, ResultSet rows) throws SQLException {
        ResultSetMetaData columns = rows.getMetaData();
        for (int column = 1; column <= columns.getColumnCount(); column++) {
            boolean text = isText(columns.getColumnType(column));
            String value;
            if (text) {
                value = rows.getString(column);
            } else {
                BigDecimal number = rows.getBigDecimal(column);
                value = number == null ? null : number.toPlainString();
            }
            found.add(value == null ? "0" : (text ? "C" : "N") + value);
        }
    }
}
