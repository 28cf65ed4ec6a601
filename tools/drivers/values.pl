# Values through Perl's DBD::Pg: values.pl PORT WAY NAME.
# Standard input has a line for each value.
use strict;
use warnings;
use DBI;
use DBD::Pg qw(:pg_types);

my ($port, $way, $name) = @ARGV;
while (my $line = <STDIN>) {
    my ($kind, $type, $hex) = split ' ', $line;
    my $value = $hex eq '-' ? undef : pack 'H*', $hex;
    my $result = eval {
        my $connection = DBI->connect("dbi:Pg:host=127.0.0.1;port=$port;dbname=shop", 'app', '',
            { RaiseError => 1, PrintError => 0, pg_enable_utf8 => 0, pg_server_prepare => 0 });
        my $text = "insert into written (name, kind, as_$type) values";
        my $bound = $type eq 'bytea' ? { pg_type => PG_BYTEA } : undef;
        if ($way eq 'parameters') {
            my $insert = $connection->prepare("$text (?, ?, ?)");
            $insert->bind_param(1, $name);
            $insert->bind_param(2, $kind);
            $insert->bind_param(3, $value, $bound);
            $insert->execute;
        } elsif ($way eq 'literal') {
            (my $plain = $type eq 'bytea' ? '\x' . $hex : $value // '') =~ s/'/''/g;
            my $quoted = defined $value ? "'$plain'" : 'null';
            $text = "insert into written (name, as_$type, kind) values";
            $connection->do("$text ('$name', $quoted, ?)", undef, $kind);
        } else {
            my $quoted = $connection->quote($value, $bound);
            $connection->do("$text ('$name', '$kind', $quoted)");
        }
        my $query = "select as_$type from given where kind = ?";
        my ($read) = $connection->selectrow_array($query, undef, $kind);
        $connection->disconnect;
        defined $read ? unpack 'H*', $read : 'NULL';
    };
    my $wrong = $@ =~ s/\s+/ /gr;
    print defined $result ? "$kind read $result\n" : "$kind error $wrong\n";
}
