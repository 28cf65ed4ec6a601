# Values through Ruby's pg: values.rb PORT WAY NAME.
# Standard input has a line for each value.
require "pg"

port, way, name = ARGV
$stdin.each_line do |line|
  kind, type, hex = line.split
  begin
    value = hex == "-" ? nil : [hex].pack("H*")
    value.force_encoding("UTF-8") if value && type != "bytea"
    connection = PG.connect(host: "127.0.0.1", port: port, user: "app", dbname: "shop")
    text = "insert into written (name, kind, as_#{type}) values "
    if way == "parameters"
      value = { value: value, format: 1 } if type == "bytea"
      connection.exec_params("#{text}($1, $2, $3)", [name, kind, value])
      found = connection.exec_params("select as_#{type} from given where kind = $1", [kind])
    else
      escape = type == "bytea" ? :escape_bytea : :escape_string
      quoted = value ? "'#{connection.send(escape, value)}'" : "null"
      connection.exec("#{text}('#{name}', '#{kind}', #{quoted})")
      found = connection.exec("select as_#{type} from given where kind = '#{kind}'")
    end
    read = found.getvalue(0, 0)
    read = connection.unescape_bytea(read) if type == "bytea"
    puts "#{kind} read #{read ? read.unpack1('H*') : 'NULL'}"
    connection.close
  rescue StandardError => error
    puts "#{kind} error #{error.message.split.join(' ')}"
  end
end
