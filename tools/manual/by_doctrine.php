<?php
// Doctrine DBAL: by_doctrine.php PORT DRIVER [emulate]. Writes a value with a backslash, and reads it.
require '/usr/share/php/Doctrine/DBAL/autoload.php';

[, $port, $driver] = $argv;
$options = isset($argv[3]) ? [PDO::ATTR_EMULATE_PREPARES => true] : [];
try {
    $connection = Doctrine\DBAL\DriverManager::getConnection([
        'driver' => $driver, 'host' => '127.0.0.1', 'port' => (int) $port, 'user' => 'app', 'dbname' => 'shop',
        'driverOptions' => $options,
    ]);
    $connection->executeStatement('delete from written');
    $connection->executeStatement('insert into written (value) values (?)', ['a\\b']);
    $connection->transactional(fn($it) => $it->executeStatement('insert into written (value) values (?)', ["it's"]));
    $rows = $connection->fetchFirstColumn('select value from written where value <> ? order by value', ['']);
    echo implode(' ', $rows), "\n";
} catch (Throwable $error) {
    echo 'error ', preg_replace('/\s+/', ' ', $error->getMessage()), "\n";
}
