// Values through node-postgres: values.js PORT WAY NAME.
// Standard input has a line for each value.
const { Client } = require("pg");

const [port, way, name] = process.argv.slice(2);

async function pass(kind, type, hex) {
    const client = new Client({ host: "127.0.0.1", port, user: "app", database: "shop" });
    client.on("error", () => {});
    await client.connect();
    const bytes = hex === "-" ? null : Buffer.from(hex, "hex");
    const value = bytes === null || type === "bytea" ? bytes : bytes.toString();
    const text = `insert into written (name, kind, as_${type}) values`;
    let found;
    if (way === "parameters") {
        const time = () => new Date(value.replace(" ", "T").replace("+00", "Z"));
        const given = type === "timestamptz" ? time() : value;
        await client.query(`${text} ($1, $2, $3)`, [name, kind, given]);
        found = await client.query(`select as_${type} from given where kind = $1`, [kind]);
    } else {
        const plain = type === "bytea" ? "\\x" + hex : value;
        const quoted = value === null ? "null" : client.escapeLiteral(plain);
        await client.query(`${text} ('${name}', '${kind}', ${quoted})`);
        found = await client.query(`select as_${type} from given where kind = '${kind}'`);
    }
    let read = found.rows[0]["as_" + type];
    if (read instanceof Date) read = read.toISOString().replace("T", " ").replace("Z", "+00");
    await client.end();
    return read === null ? "NULL" : Buffer.from(read).toString("hex");
}

async function main() {
    const lines = require("fs").readFileSync(0, "utf8").trim().split("\n");
    for (const line of lines) {
        const [kind, type, hex] = line.split(" ");
        try {
            const late = new Promise((_, fail) => setTimeout(fail, 5000, new Error("no answer")));
            console.log(`${kind} read ${await Promise.race([pass(kind, type, hex), late])}`);
        } catch (error) {
            console.log(`${kind} error ${error.message.replace(/\s+/g, " ")}`);
        }
    }
    process.exit(0);
}
main();
