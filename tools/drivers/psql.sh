#!/bin/bash
# Values through psql: psql.sh PORT WAY NAME, with a line for each value on standard input.
# `variables` has psql quote them; `script` has them as literals of a script with several
# statements, of which the last is an error.
port=$1 way=$2 name=$3
run() {
    psql -X -q -At -v VERBOSITY=terse -h 127.0.0.1 -p "$port" -U app -d shop "$@" 2>&1
}
while read -r kind type hex; do
    column=as_$type
    value="\\x$hex"
    [ "$type" = bytea ] || value=$(printf '%b' "$(sed 's/../\\x&/g' <<<"${hex#-}")")
    quoted="'${value//\'/\'\'}'"
    [ "$hex" != - ] || quoted=null
    if [ "$way" = variables ] && [ "$hex" != - ]; then
        wrong=$(run -v "value=$value" \
            <<<"insert into written (name, kind, $column) values ('$name', '$kind', :'value');")
    else
        wrong=$(run <<SQL
insert into written (name, kind, $column) values ('$name', '$kind', $quoted);
insert into written (name, kind, as_text) values ('$name', 'next', 'next');
select 1/0;
SQL
)
        [ "${wrong#*division by zero}" = "$wrong" ] || wrong=
    fi
    [ -z "$wrong" ] || echo "$kind error ${wrong%%$'\n'*}"
    shown="convert_to($column::text, 'UTF8')"
    [ "$type" != bytea ] || shown=$column
    shown="coalesce(encode($shown, 'hex'), 'NULL')"
    if read=$(run -c "select $shown from given where kind = '$kind'"); then
        echo "$kind read $read"
    else
        echo "$kind error ${read%%$'\n'*}"
    fi
done
