<?php
// Values through PHP: values.php PORT WAY NAME, with a line for each value on standard input.
[, $port, $way, $name] = $argv;

function shown($value): string
{
    $bytes = is_resource($value) ? stream_get_contents($value) : $value;
    return $bytes === null ? 'NULL' : bin2hex($bytes);
}

// PDO: its named statements, unnamed ones, texts that it writes itself, and its function quote.
function by_pdo($port, $way, $name, $kind, $type, $value): string
{
    $pdo = new PDO("pgsql:host=127.0.0.1;port=$port;dbname=shop;user=app", null, null, [
        PDO::ATTR_ERRMODE => PDO::ERRMODE_EXCEPTION,
        PDO::ATTR_EMULATE_PREPARES => $way == 'emulated',
        PDO::PGSQL_ATTR_DISABLE_PREPARES => in_array($way, ['unprepared', 'quote']),
    ]);
    $as = $type == 'bytea' ? PDO::PARAM_LOB : PDO::PARAM_STR;
    if ($way == 'quote') {
        $quoted = $value === null ? 'null' : $pdo->quote($value, $as);
        $pdo->exec("insert into written (name, kind, as_$type) values ('$name', '$kind', $quoted)");
    } else {
        $insert = $pdo->prepare("insert into written (name, kind, as_$type) values (?, ?, ?)");
        $insert->bindValue(1, $name);
        $insert->bindValue(2, $kind);
        $insert->bindValue(3, $value, $as);
        $insert->execute();
    }
    return shown($pdo->query("select as_$type from given where kind = '$kind'")->fetchColumn());
}

// The functions of the extension pgsql.
function by_pgsql($port, $way, $name, $kind, $type, $value): string
{
    $where = "host=127.0.0.1 port=$port dbname=shop user=app";
    $connection = pg_connect($where, PGSQL_CONNECT_FORCE_NEW);
    $text = "insert into written (name, kind, as_$type) values ";
    if ($way == 'parameters') {
        $given = $type == 'bytea' ? '\x' . bin2hex($value) : $value;
        pg_query_params($connection, "$text(\$1, \$2, \$3)", [$name, $kind, $given]);
    } else {
        $escape = $type == 'bytea' ? 'pg_escape_bytea' : 'pg_escape_string';
        $quoted = $value === null ? 'null' : "'" . $escape($connection, $value) . "'";
        pg_query($connection, "$text('$name', '$kind', $quoted)");
    }
    $found = pg_query($connection, "select as_$type from given where kind = '$kind'");
    $read = pg_fetch_result($found, 0, 0);
    pg_close($connection);
    return shown($type == 'bytea' ? pg_unescape_bytea($read) : $read);
}

set_error_handler(function ($number, $message) {
    throw new ErrorException($message);
});
while ($line = fgets(STDIN)) {
    [$kind, $type, $hex] = explode(' ', trim($line));
    $value = $hex == '-' ? null : hex2bin($hex);
    try {
        $by = in_array($way, ['parameters', 'escaped']) ? 'by_pgsql' : 'by_pdo';
        $read = $by($port, $way, $name, $kind, $type, $value);
        echo "$kind read $read\n";
    } catch (Throwable $error) {
        echo "$kind error ", preg_replace('/\s+/', ' ', $error->getMessage()), "\n";
    }
}
