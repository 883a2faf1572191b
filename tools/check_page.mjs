// node check_page.mjs PAGE CASES RESIL RESIL_LOOK: a line 'passed', or what has failed, for each answer of the page; tools/check_page
// says what is compared.
import { spawnSync } from "child_process";
import { readFileSync } from "fs";
import { files, filled, heads, log as logOf, longLoad, longLog, moments, times } from "./page_texts.mjs";
const [page, cases, resil, lookBuilt] = process.argv.slice(2);
const html = readFileSync(page, "utf8");
const script = (id) => new RegExp(`<script[^>]* id="${id}">([^<]*)<`).exec(html)[1];
const code = (id) => new RegExp(`<script id="${id}">([^]*?)</script>`).exec(html)[1];
const { load, answer, commands, held, take, give, look, carry, headOf, headSaid, drawnLoad, recordsOf, recorderOf, inOrder, addressOf, unitOf, text, bytes, sizes } = new Function(`${code("calls")}${code("logic")}
  return { load, answer, commands, held: () => wasm.memory.buffer.byteLength, take: (size) => wasm.malloc(size), give: (at) => wasm.free(at), look, carry, headOf, headSaid, drawnLoad, recordsOf, recorderOf, inOrder, addressOf, unitOf, text, bytes, sizes };`)();
await load(script("module"));

let state = 11;
const below = (most) => (state = (Math.imul(state, 1664525) + 1013904223) >>> 0) % most;
const mark = (isRight, said) => console.log(isRight ? "passed" : `failed: ${said.replaceAll("\n", " ")}`);

// How many bytes an input of a command may have.
const mebibyte = 1048576;
const mostOf = (words) => mebibyte * (/^(replay|audit)$/.test(words) ? 1 : /^simulate/.test(words) ? 4 : 16);

function compare(words, input, name) {
  const program = ["replay", "audit"].includes(words) ? resil : lookBuilt;
  const ran = spawnSync(program, words.split(" "), { input, maxBuffer: 1 << 28 });
  const { status, output, said } = answer(words, input);
  const told = ran.stderr.toString();
  mark(ran.status === status && ran.stdout.equals(output) && told === said, `${words}, ${name}: ${status} not ${ran.status}; ${said} not ${told}`);
  if (words === "timeline" || words === "simulate") compareHead(words, input, ran, name);
}

// What is said of a head: it is refused as the program refuses it, unless its events are too few, and of a load it has the pools of the table, but for a recorder's head, whose sizes the history has.
function compareHead(words, input, ran, name) {
  const said = answer(words === "timeline" ? "head" : "load head", input), line = ran.stdout.toString(), isRefused = /^refused (input|head) /.test(line) && !(said.status === 0 && /^made/m.test(input));
  const pools = (csv) => csv.trim().split("\n").slice(1).filter((row) => !row.startsWith(",,,")).map((row) => row.split(",").slice(0, 3).join()).join(" ");
  mark(isRefused ? said.status === 1 && text(said.output) === line : said.status === 0, `the head of ${words}, ${name}: ${said.status}, ${text(said.output)}`);
  if (words === "simulate" && ran.status === 0 && !/^max = 536870911$/m.test(input)) mark(pools(text(said.output)) === pools(line), `the pools of ${name}: ${text(said.output)}`);
}

for (const line of readFileSync(`${cases}/names`, "utf8").trim().split("\n")) {
  const name = line.split(" ")[0], [, , ...words] = readFileSync(`${cases}/${name}.how`, "utf8").replace(/\n$/, "").split("\n");
  if (!commands.includes(words.join(" "))) continue;
  const input = readFileSync(`${cases}/${name}.resil`), changed = Buffer.from(input), cut = input.subarray(0, below(input.length + 1));
  compare(words.join(" "), input, name);
  if (input.length === 0 || input.length > 100000) continue;
  for (let i = 0; i < 3; i++) changed[below(changed.length)] = Buffer.from("\0\n\r,-=01289[]\"'#ax\xff\xc3", "latin1")[below(20)];
  compare(words.join(" "), cut, `${name}, cut to ${cut.length}`);
  compare(words.join(" "), changed, `${name}, changed`);
  compare(commands[below(commands.length)], input, name);
}

const head = "core = 4\nmax = 8\nqueue = 100\n", reply = (i) => (i <= 4 ? "core" : i <= 104 ? "queued" : i <= 108 ? "extra" : "full");
const jobsOf = (size) => filled(size, head, "event,caller,number\n", (i) => `submit,1,${i}\n`), auditOf = (size) => filled(size, head, "event,caller,number,reply\n", (i) => `submit,1,${i},${reply(i)}\n`);
const textOf = { replay: jobsOf, audit: auditOf, simulate: longLoad, "simulate --history": longLoad };
const [jobs, log, arrivals] = [jobsOf, longLog, longLoad].map((long) => Buffer.from(long(mebibyte)));
const rounds = [["replay", jobs], ["judge", log], ["stats", log], ["timeline", log], ["simulate", arrivals], ["simulate --history", arrivals]];
for (const [words, input] of rounds) compare(words, input, "a mebibyte");
let first = 0;
for (let round = 1; round <= 12; round++) {
  for (const [words, input] of rounds) answer(words, input);
  if (round === 2) first = held();
}
mark(held() === first, `twelve rounds of a mebibyte take ${held()} bytes, two ${first}`);
for (const words of commands)
  for (const size of [0, mostOf(words), mostOf(words) + 1]) compare(words, Buffer.from(size ? (textOf[words] ?? longLog)(size) : ""), `${size} bytes`);
compare("judge", Buffer.from(filled(2 * mebibyte, `name = "${"x".repeat(mebibyte)}"\n`, "", () => "x\n")), "a long head");
compare("simulate", Buffer.from(filled(mostOf("simulate"), "core = 1\nmax = 2\n", "at,takes\n", () => "0,0\n")), "equal jobs");
mark(held() <= 2 ** 30, `inputs at the limit take ${held()} bytes`);
// The page's own script, without its fields.
const want = (name, got, wanted) => mark(wanted instanceof RegExp ? wanted.test(got) : got === wanted, `${name}: ${JSON.stringify(got)}, not ${wanted}`);
for (const [start, cores, values, called = ""] of heads) {
  const whole = `${start}---\n${logOf(cores)}`, seen = look(bytes(whole)), touched = headOf(sizes, values.split(","), called) + `---\n${logOf(cores)}`;
  want(`the verdict under ${start}`, text(seen.verdict.output), "legal\n");
  want(`the sizes of ${start}`, seen.said.values.join(), values);
  want(`the name of ${start}`, seen.said.name, called);
  want(`the replies under ${start}`, seen.replies.count, 20);
  want(`the same by the fields, ${start}`, JSON.stringify([headSaid(bytes(touched)), text(look(bytes(touched)).verdict.output)]), JSON.stringify([seen.said, "legal\n"]));
}
const named = 'a "b" \\ \t\n\x7f\u00e9 \u2028';
want("a name that is written and read", headSaid(bytes(`${headOf(sizes, ["1", "2", "3"], named)}---\n`)).name, named);
want("empty lines", look(bytes(`core = 1\nmax = 1\nqueue = 1\n---\n\n\r\n${logOf(1).replaceAll("\n", "\n\n")}`)).fault, 3);
want("records", JSON.stringify(recordsOf('\uFEFF\n"a",b"c,"d""e"f\r\r\n\n,\n"x\n,y')), '[["a","b\\"c","d\\"ef"],["",""],["x\\n,y"]]');
const late = look(bytes(`core = 1\nmax = 1\nqueue = 2990\n---\nevent,caller,number,reply\n${Array.from({ length: 5000 }, (_, i) => `submit,1,${i + 1},${i ? "queued" : "core"}\n`).join("")}`));
want("a late fault", [late.fault, late.replies.from, late.replies.records.length, late.replies.count, late.replies.records[999][2]].join(), "2992,1992,2000,5000,2992");
const timed = look(bytes(`core = 1\nmax = 1\nqueue = 1\n---\n${times}`));
want("a log with times", [timed.hasTimes, timed.isLoad, /^run_median,,(\d+)/m.exec(timed.numbers)[1]].join(), "true,false,10");
const other = look(bytes(`core = 1\nmax = [1, 2]\ntakes = 7\n---\n${times}`));
want("a log for other pools", [other.isLoad, other.said.pools.join(" "), other.said.idleFor, other.said.takes, other.verdict.status].join("; "), "true; 1,1,100 1,2,100; 20000; 7; 0");
const many = drawnLoad(1000, 3, 20), count = many.trim().split("\n").length - 1, ran = carry(bytes(`core = 2\nmax = [2, 4]\n---\n${many}`), 1);
const [, shown, all] = /first (\d+) of (\d+) jobs/.exec(ran.line) ?? [0, count, count];
want("a load of some 20,000 jobs", [ran.verdict.status, ran.chosen, Number(all) === count, shown > 8000 && shown <= count, /^<svg/.test(ran.picture.svg)].join(), "0,1,true,true,true");
want("the pool that its picture is of", ran.line, /^the chart is of pool 2 of 2: core = 2, max = 4, queue = 100\n/);
const linesOf = (input) => input.toString().split("---\n")[1].split("\n").length - 2, program = (words, input) => spawnSync(lookBuilt, [words], { input, maxBuffer: 1 << 26 }).stdout.toString();
const longest = Buffer.from(longLog(mostOf("timeline")));
for (const [name, input] of [["a mebibyte of rows", jobs], ["a log of 16 MiB", longest]]) {
  const seen = look(input), own = seen.picture.input;
  want(name, [text(seen.verdict.output), seen.replies.count === linesOf(input), seen.numbers === program("stats", own), seen.picture.svg === program("timeline", own)].join(), "legal\n,true,true,true");
}
const partly = carry(Buffer.concat([Buffer.from("takes = 9\n"), longest]), 0, true), [, kept, events] = /^the load is the first (\d+) of (\d+) events of the log/m.exec(partly.line) ?? [];
want("a load of a log of 16 MiB", [partly.verdict.status, kept > 100000, Number(events) === linesOf(longest), /^<svg/.test(partly.picture.svg)].join(), "0,true,true,true");
const loaded = Buffer.from(longLoad(mostOf("simulate"))), most = carry(loaded, 0, false), [, part, whole] = /first (\d+) of (\d+) jobs/.exec(most.line) ?? [];
want("a load of 4 MiB", [most.table === program("simulate", loaded), part > 100000, Number(whole) === linesOf(loaded), /^<svg/.test(most.picture.svg)].join(), "true,true,true,true");
want("the longest load", carry(bytes(`core = 1\nmax = 1\n---\n${drawnLoad(1e9, 1e6, 60)}`), 0).table.split("\n")[1].split(",")[3], "50000");

// What the page needs to read a picture, the order of files, the address, and units.
const { picture: read, replies } = look(bytes(moments));
want("what a picture is read by", JSON.stringify([read.most, read.times, replies.count]), '[{"waiting":2,"workers":2},["70","29870"],12]');
const stopped = look(bytes(`core = 1\nmax = 1\n---\n${times}take,1,2,,,,11\n`));
want("the times before a fault", JSON.stringify([stopped.fault, stopped.picture.times]), '[5,["0","10"]]');
const { picture: drawn } = carry(bytes("core = 1\nmax = 1\nqueue = [1, 2]\n---\nat,takes\n7,10\n8,10\n9,10\n"), 1);
want("what a load's picture is read by", JSON.stringify([drawn.most, drawn.times]), '[{"waiting":2,"workers":1},["7","37"]]');
const described = files.map(([name, whole]) => {
  const [first, last] = [/core,,,(\d+)/, /(\d+)\n$/].map((pattern) => Number(pattern.exec(whole)[1]));
  return { name, ...recorderOf(whole.split("---\n")[0]), span: last - first };
});
want("files of two records", inOrder(described).map(({ name, notes }) => [name, ...notes].join(": ")).join("; "),
  "orders-00001.csv; orders-00002.csv; orders-00004.csv: comes after a missing file: orders-00003.csv: begins 5 s after the end of orders-00002.csv; " +
  "mails-00001.csv: is of another record: mails 7 2, not orders 7 1");
const nameless = ["x-10.csv", "x-9.csv", "x-2.csv"].map((name) => ({ name, record: "", began: NaN, span: NaN }));
want("files by their names", inOrder(nameless).map(({ name, notes }) => [name, ...notes].join(": ")).join("; "), "x-2.csv; x-9.csv: comes after a missing file: x-3.csv to x-8.csv; x-10.csv");
want("a recorder's head", JSON.stringify(recorderOf('core = 1\nidle_for = 5\nrecord = "a 1"\r\nbegan = 2026-11-30T07:05:25Z\n')), JSON.stringify({ record: "a 1", began: Date.UTC(2026, 10, 30, 7, 5, 25), idleFor: "5" }));
for (const [hash, fields, told] of [
  ["#core=2&max=4,8&queue=50&idle_for=0&rate=1.5&mean=0&seconds=60", "core=2;max=4,8;queue=50;idle_for=0;rate=1.5;mean=0;seconds=60", ""],
  ["#core=65&max=0&queue=65537&idle_for=31536000000001&rate=0&mean=-1&seconds=61", "", "core max queue idle_for rate mean seconds"],
  ["#core=1,2,3,4,5,6,7,8,9&queue=1.5&mean=x&seconds=&rate=1e3&idle_for=1,2&what=1", "", "core queue mean seconds rate idle_for what"],
  ["#core=4,8&max=2,3&queue=1&queue=2", "queue=1", "queue core"],
  ["", "", ""],
]) {
  const address = addressOf(hash);
  want(`the address ${hash}`, [...address.fields].map((field) => field.join("=")).join(";"), fields);
  want(`what is told of ${hash}`, address.told.map((line) => /^\w+/.exec(line)[0]).join(" "), told);
}
want("units", [["core", "1"], ["most_workers", "2"], ["wait_p99", "5600"], ["run_most", ""], ["verdict", "legal"], ["resizes", "3"]].map((it) => unitOf(...it)).join("; "), "1 job; 2 workers; 5.6 ms; ; legal; 3");

// No block of 4 MiB or more is left but for the input and for what is handed over.
const blocks = [2n ** 25n, 2n ** 22n, 2n ** 22n].map(take);
for (let size = 2n ** 34n; size >= 2n ** 22n; size /= 2n) while (take(size));
blocks.forEach(give);
const used = held(), full = answer("timeline", longest);
mark(full.status === 3 && text(full.output) === "refused memory\n" && full.said === "", `no more memory: ${full.status}, ${text(full.output)}, ${full.said}`);
compare("judge", Buffer.from(`core = 1\nmax = 1\n---\n${logOf(1)}`), "after that");
mark(held() === used, "the module begins anew when there is no more memory");
