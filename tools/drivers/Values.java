import java.nio.charset.StandardCharsets;
import java.sql.Connection;
import java.sql.DriverManager;
import java.sql.PreparedStatement;
import java.sql.ResultSet;
import java.sql.Timestamp;
import java.time.OffsetDateTime;
import java.time.ZoneOffset;
import java.time.format.DateTimeFormatter;
import java.util.HexFormat;
import java.util.Scanner;

/** Values through pgjdbc: Values PORT WAY NAME, with a line for each value on standard input. */
public class Values {
    static final DateTimeFormatter TIME = DateTimeFormatter.ofPattern("yyyy-MM-dd HH:mm:ss.SSSX");

    public static void main(String[] words) {
        Scanner lines = new Scanner(System.in);
        while (lines.hasNextLine()) {
            String[] line = lines.nextLine().split(" ");
            try {
                System.out.println(line[0] + " read " + pass(words, line[0], line[1], line[2]));
            } catch (Exception error) {
                String message = String.valueOf(error.getMessage()).replaceAll("\\s+", " ");
                System.out.println(line[0] + " error " + message);
            }
        }
    }

    static String pass(String[] words, String kind, String type, String hex) throws Exception {
        String mode = words[1].equals("simple") ? "&preferQueryMode=simple" : "";
        String url = "jdbc:postgresql://127.0.0.1:" + words[0]
            + "/shop?user=app&prepareThreshold=0" + mode;
        String text = "insert into written (name, kind, as_" + type + ") values ";
        byte[] value = hex.equals("-") ? null : HexFormat.of().parseHex(hex);
        String plain = value == null ? null : new String(value, StandardCharsets.UTF_8);
        try (Connection connection = DriverManager.getConnection(url)) {
            if (words[1].equals("literal")) {
                String quoted = type.equals("bytea") ? "\\x" + hex : plain;
                quoted = value == null ? "null" : "'" + quoted.replace("'", "''") + "'";
                text = "insert into written (name, as_" + type + ", kind) values "
                    + "('" + words[2] + "', " + quoted + ", ?)";
            } else {
                text += "('" + words[2] + "', ?, ?)";
            }
            try (PreparedStatement insert = connection.prepareStatement(text)) {
                insert.setString(1, kind);
                if (words[1].equals("literal")) {
                    // The value is in the text.
                } else if (type.equals("bytea")) {
                    insert.setBytes(2, value);
                } else if (type.equals("timestamptz")) {
                    OffsetDateTime time = OffsetDateTime.parse(plain, TIME);
                    insert.setTimestamp(2, Timestamp.from(time.toInstant()));
                } else {
                    insert.setString(2, plain);
                }
                insert.executeUpdate();
            }
            String query = "select as_" + type + " from given where kind = ?";
            try (PreparedStatement select = connection.prepareStatement(query)) {
                select.setString(1, kind);
                ResultSet found = select.executeQuery();
                found.next();
                return shown(found, type);
            }
        }
    }

    static String shown(ResultSet found, String type) throws Exception {
        if (type.equals("bytea")) {
            return HexFormat.of().formatHex(found.getBytes(1));
        }
        String text = found.getString(1);
        if (type.equals("timestamptz")) {
            text = found.getObject(1, OffsetDateTime.class).withOffsetSameInstant(ZoneOffset.UTC)
                .format(TIME).replace("Z", "+00");
        }
        if (text == null) {
            return "NULL";
        }
        return HexFormat.of().formatHex(text.getBytes(StandardCharsets.UTF_8));
    }
}
