// Texts for the page, with what is wanted of them, worked out from docs/FORMATS.md. tools/check_page.mjs puts them through the page's script in
// node, and tools/check_page_browser.mjs through the page in a browser.

// Twenty submissions, the first of which a pool of this many core workers starts at once.
export const log = (cores) => `event,caller,number,reply\n${Array.from({ length: 20 }, (_, i) => `submit,1,${i + 1},${i < cores ? "core" : "queued"}\n`).join("")}`;

export const times = "event,caller,number,reply,core,max,at\nsubmit,1,1,core,,,0\nsubmit,1,2,queued,,,5\nfinish,1,1,,,,10\ntake,1,2,,,,10\n";

// Heads of such a log, which is legal under each; how many core workers it has then; and the sizes.
export const heads = [
  ["core = 1\nmax = 1\n", 1, "1,1,100"],
  ["core = 1\nmax = 1\nqueue = 1_000\n", 1, "1,1,1000"],
  ["core = 1\nmax = 1\nqueue = +50\n", 1, "1,1,50"],
  ["core = 0x2\nmax = 2\n", 2, "2,2,100"],
  ['"core" = 1\n  max = 1\n\tqueue = 60 # places\n', 1, "1,1,60"],
  ['core = 1\nname = """two\nlines"""\nmax = 1\n', 1, "1,1,100", "two\nlines"],
  ["core = 1\r\nmax = 1\r\nkeep_alive = 5\r\n[permits]\r\na = 1\r\n", 1, "1,1,100"],
];

// A log with times in microseconds, of a pool of one to two workers and two places, which has each kind of mark.
export const moments =
  "core = 1\nmax = 2\nqueue = 2\n---\nevent,caller,number,reply,core,max,at\nsubmit,1,1,core,,,70\nsubmit,2,1,queued,,,470\nsubmit,1,2,queued,,,970\n" +
  "submit,2,2,extra,,,1570\nsubmit,1,3,full,,,1670\nfinish,1,1,,,,5070\ntake,2,1,,,,5070\nfinish,2,2,,,,6570\ntake,1,2,,,,6570\nfinish,2,1,,,,9070\n" +
  "finish,1,2,,,,9870\nidle,,,,,,29870\n";

// A text of exactly so many bytes under a head, with a comment in the head that fills it up. The lines of the body are made one after the other.
export function filled(size, head, header, lineOf) {
  const lines = [header];
  let left = size - head.length - header.length - "---\n# \n".length;
  for (let i = 1; ; i++) {
    const line = lineOf(i);
    if (line.length > left) break;
    left -= line.length;
    lines.push(line);
  }
  return `# ${"x".repeat(left)}\n${head}---\n${lines.join("")}`;
}

// A legal log with times of exactly so many bytes: the one worker has always a job, and one waits for a microsecond before each next one.
export const longLog = (size) =>
  filled(size, 'core = 1\nmax = 1\nrecord = "long 1"\n', "event,caller,number,reply,core,max,at\nsubmit,1,1,core,,,0\n", (i) =>
    `submit,1,${i + 1},queued,,,${9 * i}\nfinish,1,${i},,,,${9 * i + 1}\ntake,1,${i + 1},,,,${9 * i + 1}\n`);

// A load of exactly so many bytes.
export const longLoad = (size) => filled(size, "core = 1\nmax = 2\n", "at,takes\n", (i) => `${i}00,90\n`);

// Files of two records, each with its name and its text, not in their order: of `orders` number 3 isn't there, and nothing is recorded for 5 s before number 4.
const part = (name, record, began, last) =>
  [name, `core = 1\nmax = 1\nqueue = 100\nrecord = "${record}"\nbegan = 2026-11-30T07:05:${began}Z\n---\nevent,caller,number,reply,core,max,at\nsubmit,1,1,core,,,500\nfinish,1,1,,,,${last}\n`];
export const files = [
  part("orders-00004.csv", "orders 7 1", "20.000001", 1000500),
  part("mails-00001.csv", "mails 7 2", "01", 500),
  part("orders-00002.csv", "orders 7 1", "10.5", 4500500),
  part("orders-00001.csv", "orders 7 1", "00", 10000500),
];
