// Values through pgx: values PORT WAY NAME, with a line for each value on standard input.
package main

import (
	"bufio"
	"context"
	"encoding/hex"
	"fmt"
	"os"
	"strings"
	"time"

	"github.com/jackc/pgx/v4"
)

const layout = "2006-01-02 15:04:05.999999999-07"

func pass(port, way, name, kind, kindOfValue, digits string) (string, error) {
	url := "postgres://app@127.0.0.1:" + port + "/shop?sslmode=disable"
	if way == "parameters" {
		url += "&statement_cache_mode=describe"
	}
	config, err := pgx.ParseConfig(url)
	if err != nil {
		return "", err
	}
	config.PreferSimpleProtocol = way == "simple"
	ctx, cancel := context.WithTimeout(context.Background(), 10*time.Second)
	defer cancel()
	connection, err := pgx.ConnectConfig(ctx, config)
	if err != nil {
		return "", err
	}
	defer connection.Close(ctx)
	data, _ := hex.DecodeString(digits)
	var value interface{}
	switch {
	case digits == "-":
		value = nil
	case kindOfValue == "bytea":
		value = data
	case kindOfValue == "timestamptz":
		value, _ = time.Parse(layout, string(data))
	default:
		value = string(data)
	}
	text := "insert into written (name, kind, as_" + kindOfValue + ") values ($1, $2, $3)"
	if _, err := connection.Exec(ctx, text, name, kind, value); err != nil {
		return "", err
	}
	row := connection.QueryRow(ctx, "select as_"+kindOfValue+" from given where kind = $1", kind)
	var found interface{}
	if err := row.Scan(&found); err != nil {
		return "", err
	}
	switch it := found.(type) {
	case nil:
		return "NULL", nil
	case []byte:
		return hex.EncodeToString(it), nil
	case time.Time:
		return hex.EncodeToString([]byte(it.UTC().Format(layout))), nil
	}
	return hex.EncodeToString([]byte(found.(string))), nil
}

func main() {
	lines := bufio.NewScanner(os.Stdin)
	for lines.Scan() {
		words := strings.Fields(lines.Text())
		read, err := pass(os.Args[1], os.Args[2], os.Args[3], words[0], words[1], words[2])
		if err != nil {
			fmt.Println(words[0], "error", strings.Join(strings.Fields(err.Error()), " "))
		} else {
			fmt.Println(words[0], "read", read)
		}
	}
}
