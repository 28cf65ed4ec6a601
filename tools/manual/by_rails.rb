# ActiveRecord without prepared statements: by_rails.rb PORT [prepared].
# Reads an interval and a time by three connections, and writes backslashes and bytes.
require "active_record"

port, prepared = ARGV
ActiveRecord::Base.establish_connection(
  adapter: "postgresql", host: "127.0.0.1", port: port.to_i, username: "app", database: "shop",
  prepared_statements: prepared == "prepared"
)
class Span < ActiveRecord::Base
  attribute :span, :interval
end
begin
  3.times do
    row = Span.find_by(name: "first")
    puts "#{row.span.to_i} #{row.at.utc.iso8601}"
    ActiveRecord::Base.connection.disconnect!
    ActiveRecord::Base.connection.reconnect!
  end
  Span.create!(name: "a\\b", bytes: [0, 92, 255].pack("C*"), at: Time.at(0), span: 1.hour)
  puts "written"
rescue StandardError => error
  puts "error #{error.message.split.join(' ')[0, 150]}"
end
