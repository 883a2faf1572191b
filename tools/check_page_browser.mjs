// node check_page_browser.mjs PAGE FOLDER CHROMIUM RESIL_LOOK: drives the page's own script in a browser, through its fields, files, drops and pastes, and
// writes a line 'passed', or what has failed, for each thing that the page must show. With a further word, a folder, it leaves pictures of the
// page there; with more words it makes only these checks, as in `checkLooks`. What is wanted is worked out from docs/FORMATS.md, and for long texts it is what
// the program answers.
import { spawn, spawnSync } from "child_process";
import { writeFileSync } from "fs";
import { pathToFileURL } from "url";
import { files, heads, log, longLoad, longLog, moments, times } from "./page_texts.mjs";
const [page, folder, chromium, look, pictures, ...some] = process.argv.slice(2);
const words = ["--headless=new", "--no-sandbox", "--disable-gpu", "--no-first-run", "--remote-debugging-pipe", `--user-data-dir=${folder}/browser`];
const browser = spawn(chromium, [...words, "about:blank"], { stdio: ["ignore", "ignore", "ignore", "pipe", "pipe"] });
const answers = new Map();
let count = 0, session, rest = "";
browser.stdio[4].on("data", (data) => {
  const parts = (rest + data).split("\0");
  rest = parts.pop();
  for (const { id, result, error } of parts.map((part) => JSON.parse(part))) answers.get(id)?.(error ? { error } : result);
});
const send = (method, params = {}) => new Promise((done) => {
  answers.set(++count, done);
  browser.stdio[3].write(`${JSON.stringify({ id: count, method, params, sessionId: session })}\0`);
});
const mark = (isRight, said) => console.log(isRight ? "passed" : `failed: ${said}`.replaceAll("\n", " "));
const run = async (code) => {
  const { result, exceptionDetails } = await send("Runtime.evaluate", { expression: `(async () => { ${code} })()`, awaitPromise: true, returnByValue: true });
  if (exceptionDetails) throw new Error(exceptionDetails.exception?.description ?? exceptionDetails.text);
  return result.value;
};

// What is shown once nothing is grey any more.
const shown = () => run(`
  const pause = (ms) => new Promise((done) => setTimeout(done, ms));
  for (let i = 0; i < 1200 && document.querySelector(".old, .told button"); i++) await pause(100);
  const value = (id) => by(id).value, rows = [...by("history").tBodies[0]?.rows ?? []];
  return {
    verdict: by("verdict").textContent, isGood: by("verdict").classList.contains("good"), fields: sizes.map(value).join(), whole: value("rows"),
    fault: rows.filter((row) => row.className === "fault").map((row) => row.textContent).join(";"), replies: rows.length,
    picture: by("results").hidden ? "" : by("picture").firstChild?.dataset.events, marked: by("rows").value.slice(by("rows").selectionStart, by("rows").selectionEnd),
    simulated: by("simulated").textContent, isCarried: by("simulated").classList.contains("good"), pools: by("pools").tBodies[0]?.rows.length ?? 0,
    drawn: by("simulated-picture").firstChild?.dataset.events, load: by("sizes").elements.load.value, old: document.querySelectorAll(".old").length,
    lists: [...sizes, "idle_for", "takes"].map((key) => by("sizes").elements[key].value).join("; "), off: by("limits").disabled, wide: document.documentElement.scrollWidth,
    cut: by("cut").textContent,
  };`);
const bring = (kind, whole, isFile, target = "document.body") => run(`
  seen = {};
  const data = new DataTransfer(), text = ${JSON.stringify(whole)};
  ${isFile ? `data.items.add(new File([text], "log.resil"))` : `data.setData("text/plain", text)`};
  const event = new ${kind === "paste" ? 'ClipboardEvent("paste", { clipboardData' : 'DragEvent("drop", { dataTransfer'}: data, bubbles: true, cancelable: true });
  grey("verdict");
  ${target}.dispatchEvent(event);
  if (!event.defaultPrevented) by("verdict").classList.remove("old");
  return event.defaultPrevented;`);
const open = async (whole) => {
  await bring("drop", whole, true);
  return shown();
};
const type = async (id, value) => {
  const greyed = await run(`const field = by("${id}") ?? by("sizes").elements.${id}; field.value = ${JSON.stringify(value)}; field.dispatchEvent(new Event("input", { bubbles: true })); return document.querySelectorAll(".old").length;`);
  return { ...(await shown()), greyed };
};
const press = async (key, code) => {
  for (const type of ["keyDown", "keyUp"]) await send("Input.dispatchKeyEvent", { type, key, code: key, windowsVirtualKeyCode: code, text: key === "Enter" && type === "keyDown" ? "\r" : undefined });
};
const keys = { Enter: 13, Tab: 9, End: 35, Home: 36, ArrowLeft: 37, ArrowRight: 39, ArrowDown: 40, PageUp: 33 };
const pressed = async (...names) => {
  for (const name of names) await press(name, keys[name]);
};
// Opens files of the folder by the field for files.
const choose = async (...names) => {
  const { root } = await send("DOM.getDocument"), { nodeId } = await send("DOM.querySelector", { nodeId: root.nodeId, selector: "#file" });
  await run('seen = {}; grey("verdict")');
  await send("DOM.setFileInputFiles", { nodeId, files: names.map((name) => `${folder}/${name}`) });
  return shown();
};
// The page as it is opened at an address.
const visit = async (hash = "") => {
  await send("Page.navigate", { url: "about:blank" });
  await send("Page.navigate", { url: pathToFileURL(page).href + hash });
  for (let i = 0; i < 600 && !(await run('return document.readyState === "complete" && typeof by === "function"').catch(() => false)); i++) await new Promise((done) => setTimeout(done, 100));
  return shown();
};
const want = (name, got, wanted) => {
  for (const [key, value] of Object.entries(wanted)) mark(value instanceof RegExp ? value.test(got[key]) : got[key] === value, `${name}: ${key} is ${JSON.stringify(got[key])}, not ${value}`);
};

async function checkHeads() {
  for (const [head, cores, fields] of heads) {
    want(head, await open(`${head}---\n${log(cores)}`), { verdict: "legal", isGood: true, fields, replies: 20, picture: "20", fault: "", load: "drawn", old: 0 });
  }
  want("the same queue", await type("queue", "100"), { verdict: "legal", fields: "1,1,100" });
  const less = await type("queue", "1");
  want("a smaller queue", less, { verdict: /^illegal 3\n/, fault: "3submit13queued", fields: "1,1,1", picture: "2", whole: /^core = 1\nmax = 1\nqueue = 1\n---\n/ });
  mark(less.greyed > 1, "what is shown of other sizes isn't greyed");
  want("a name", await open(`core = 1\nmax = 1\nname = 'a "b"'\n---\n${log(1)}`), { verdict: "legal" });
  want("its name", await type("max", "2"), { verdict: "legal", whole: /^core = 1\nmax = 2\nqueue = 100\nname = "a \\"b\\""\n---\n/ });
  want("no core size", await type("core", ""), { verdict: /^refused head MissingKey/, isGood: false, picture: "", fields: ",2,100" });
  await run('grey("verdict"); by("pool").requestSubmit()');
  want("'Show' without a core size", await shown(), { verdict: /^refused head MissingKey/, fields: ",2,100" });
  await run('for (const [field, value] of [[by("core"), "2"], [by("sizes").elements.idle_for, "7"]]) { field.value = value; field.dispatchEvent(new Event("input", { bubbles: true })); }');
  want("two fields at once", await shown(), { verdict: /^illegal 2\n/, fields: "2,2,100", lists: "1; 1; 100, 200, 400; 7; ", isCarried: true });
  want("a long queue", await open(`core = 1\nmax = 1\nqueue = 40000\n---\n${log(1)}`), { lists: "1; 1; 40000, 65536; 20000; " });
  for (let i = 0; i < 3; i++) want("the queues of a load", await open(`core = 1\nmax = 2\nqueue = 3\n---\n${log(1)}`), { lists: "1; 2; 3, 6, 12; 20000; " });
}

async function checkWays() {
  const whole = `core = 1\nmax = 1\nqueue = 30\n---\n${log(1)}`;
  mark(await bring("paste", whole, false, 'by("rows")'), "a whole text is pasted as rows");
  want("a pasted text", await shown(), { verdict: "legal", fields: "1,1,30", whole });
  mark(!(await bring("paste", "submit,1,21,queued\n", false, 'by("rows")')), "rows can't be pasted into the field");
  await bring("paste", log(1), false);
  want("pasted rows", await shown(), { verdict: "legal", whole });
  await bring("drop", "core = 2\nmax = 2\n---\nevent,caller,number\nsubmit,1,1\n", false);
  want("a dropped text", await shown(), { verdict: "legal", fields: "2,2,100", replies: 1 });
  want("typed rows", await type("rows", "event,caller,number\nsubmit,1,1\nsubmit,1,2\nfinish,1,1\n"), { verdict: "legal", replies: 3, whole: /^core = 2\nmax = 2\nqueue = 100\n---\nevent/ });
  writeFileSync(`${folder}/opened.resil`, whole);
  want("an opened file", await choose("opened.resil"), { verdict: "legal", fields: "1,1,30", whole });
  for (const [index, verdict] of [/^legal$/, /^legal$/, /^illegal 3\n/].entries()) {
    await run(`grey("verdict"); document.querySelectorAll("[role=group] button")[${index}].click()`);
    want(`example ${index + 1}`, await shown(), { verdict, picture: ["4", "12", "2"][index], load: index === 1 ? "rows" : "drawn", isCarried: true });
  }
}

async function checkCommands() {
  const head = "core = 1\nmax = 1\nqueue = 1\n---\n", load = "at,takes\n0,10\n1,10\n2,10\n";
  want("rows", await open(`${head}event,caller,number\nsubmit,1,1\nsubmit,1,2\nsubmit,1,3\n`), { verdict: "legal", picture: "3", replies: 3 });
  want("a log with times", await open(`${head}${times}`), { verdict: "legal", picture: "4", load: "rows", isCarried: true, lists: "1; 1; 1, 2, 4; 20000; 10", drawn: "5" });
  want("a run", await open(`core = 1\nmax = 1\n[[layer]]\nkind = "retry"\n---\n${log(1).slice(0, 42)}close,,,\n\ncaller,number,outcome,calls,waits,asked\n1,1,V7,1,,\n`), { verdict: "legal", replies: 2, picture: "2" });
  want("a load", await open(`core = [1, 2]\nmax = 2\nqueue = [3, 4]\nidle_for = 5\n---\n${load}`), { off: true, verdict: /^a load/, isGood: true, pools: 4, isCarried: true, lists: "1, 2; 2; 3, 4; 5; " });
  want("a field of a load", await run('grey("simulated"); const it = by("sizes").elements.core; it.value = "1"; it.dispatchEvent(new Event("input", { bubbles: true }))').then(shown), { pools: 2, isCarried: true });
  want("a log for other pools", await open(`core = 1\nmax = [1, 2]\ntakes = 7\n---\n${times}`), { off: true, verdict: /^a load/, pools: 3, lists: "1; 1, 2; 100; 20000; 7" });
  want("fields after a load", await open(`${head}${times}`), { off: false, fields: "1,1,1", lists: "1; 1; 1, 2, 4; 20000; 10" });
}

async function checkErrors() {
  const head = "# a log\ncore = 1\nmax = 1\nqueue = 1\n---\n", rows = "event,caller,number,reply\n\nsubmit,1,1,core\r\n\r\n\nsubmit,1,2,queued\nsubmit,1,3,queued\n";
  want("empty lines", await open(`${head}\n\n${rows}`), { verdict: /^illegal 3\n.*row 3, line 14/, fault: "3submit13queued", replies: 3, marked: "submit,1,3,queued" });
  want("quotes", await open(`${head}"event",caller,"number",reply\n"submit",1,"1","core"\n"submit",1,2,"full"\n`), { verdict: /^illegal 2\n/, fault: "2submit12full" });
  want("a faulty row", await open(`${head}event,caller,number\nsubmit,1,1\nsubmit,1\n`), { verdict: /^refused 2 BadRow\n.*line 8/, marked: "submit,1", picture: "", isGood: false });
  want("a wrong row", await open(`${head}event,caller,number\nsubmit,1,2\n`), { verdict: /^refused 1 WrongNumber\n.*line 7/, marked: "submit,1,2" });
  want("a head that is no TOML", await open(`core = 1\nmax = \n---\n${log(1)}`), { verdict: /^refused head BadToml\n.*line 2/, fields: ",," });
  want("an unknown key", await open(`core = 1\nmax = 1\nqueues = 1\n---\n${log(1)}`), { verdict: /^refused head UnknownKey\n.*line 3/, marked: "queues = 1" });
  want("a name for rows", await open("core = 1\nmax = 1\nname = 'a'\n---\nevent,caller,number\n"), { verdict: /^refused head UnknownKey/ });
  want("no separator", await open("core = 1\nmax = 1\n"), { verdict: /^refused input NoBody/ });
  want("nothing", await open(""), { verdict: /^refused input NoBody/ });
  want("another header", await open(`${head}a,b\n`), { verdict: /^refused body BadHeader/ });
  want("too long", await open(`${head}${" ".repeat((1 << 24) + 1)}`), { verdict: /^refused input TooLong\nIt is too long: a log has at most 16 MiB, a load 4 MiB, and rows to run 1 MiB\.\n/ });
  want("a load's row", await open("core = 1\nmax = 1\n---\nat,takes\n0,1\n0,x\n"), { verdict: /^refused 2 BadRow\n.*line 6/, isCarried: false, marked: "0,x" });
  want("a load's head", await open("core = []\nmax = 1\n---\nat,takes\n0,1\n"), { verdict: /^refused head BadValue/ });
  want("times that go back", await open(`${head}${times}finish,1,2,,,,9\n`), { verdict: /^refused 5 TimeGoesBack/ });
}

async function checkLoads() {
  await run('grey("verdict"); document.querySelectorAll("[role=group] button")[0].click()');
  await shown();
  await run('Object.assign(by("sizes").elements.rate, { value: "1000" }); Object.assign(by("sizes").elements.seconds, { value: "20" })');
  const many = await type("mean", "3");
  want("a load of some 20,000 jobs", many, { isCarried: true, pools: 3 });
  const [, jobs, all] = /\nthe chart shows the first (\d+) of (\d+) jobs$/.exec(many.simulated) ?? [0, 10000, 20001];
  mark(jobs > 8000 && Number(jobs) < all && all > 19000 && many.drawn > Number(jobs), `the picture has ${many.drawn} events of ${jobs} of ${all} jobs`);
  want("no second", await type("seconds", "0"), { isCarried: false, simulated: /^seconds: ./ });
  await run('Object.assign(by("sizes").elements.rate, { value: "10" }); Object.assign(by("sizes").elements.seconds, { value: "60" })');
  want("long jobs", await type("mean", "1000000"), { isCarried: true });
  await run('by("sizes").elements.queue.value = "1, 2, 3, 4, 5, 6, 7, 8"; by("sizes").elements.max.value = "1, 2, 3, 4, 5, 6, 7, 8"; by("sizes").elements.rate.value = "800"; by("sizes").elements.mean.value = "9"; by("sizes").elements.core.dispatchEvent(new Event("input", { bubbles: true }))');
  const [stopped, ...told] = await run(`const told = [];
    for (let i = 0; i < 600; i++) { await new Promise((done) => setTimeout(done, 20)); const stop = by("simulated").querySelector("button"); if (stop) told.push(by("simulated").firstChild.data); if (/pool \\d/.test(told.at(-1))) { stop.click(); break; } }
    await new Promise((done) => setTimeout(done, 50)); return [by("simulated").textContent, ...told];`);
  mark(stopped === "It was broken off.", `work isn't broken off: ${stopped}`);
  mark(/^At work for \d+\.\d s: pool \d+ of 64\. $/.test(told.at(-1)), `it isn't said how far the work is: ${told}`);
  await run('document.querySelectorAll(".old").forEach((it) => it.classList.remove("old"))');
  want("work after that", await type("seconds", "1"), { isCarried: true, pools: 64 });
}

const events = Array.from({ length: 5000 }, (_, i) => `submit,1,${i + 1},${i < 2 ? "core" : i < 102 ? "queued" : "full"},,,${i * 40}\n`).join("");
const logs = {
  small: moments, large: `core = 2\nmax = 2\nname = "orders"\n---\nevent,caller,number,reply,core,max,at\n${events}`, illegal: `core = 1\nmax = 1\nqueue = 1\n---\n${log(1)}`,
  load: `core = [1, 2]\nmax = [2, 3]\nqueue = 3\nidle_for = 500\n---\nat,takes\n${Array.from({ length: 60 }, (_, i) => `${i * 100},${(i * 97) % 400}\n`).join("")}`,
};

async function checkLooks() {
  const looks = [["wide", 1280, 900, "light"], ["dark", 1280, 900, "dark"], ["narrow", 400, 850, "light"]];
  for (const [what, whole] of Object.entries(logs)) {
    for (const [name, width, height, scheme] of looks) {
      await send("Emulation.setDeviceMetricsOverride", { width, height, deviceScaleFactor: 1, mobile: false });
      await send("Emulation.setEmulatedMedia", { features: [{ name: "prefers-color-scheme", value: scheme }] });
      const { wide } = await open(whole);
      mark(wide <= width, `${what}, ${name}: it is ${wide} wide`);
      const top = await run(`scrollTo(0, 0); const id = "${what === "load" ? "simulated-picture" : "picture"}"; point(id, 300); return by(id).getBoundingClientRect().top`);
      mark(top < height, `${what}, ${name}: the picture begins at ${top}`);
      if (pictures) writeFileSync(`${pictures}/${what}-${name}.png`, Buffer.from((await send("Page.captureScreenshot", { captureBeyondViewport: name !== "wide" })).data, "base64"));
    }
  }
}

// What is said at the cursor of a picture.
const cursor = (id = "picture") => run(`return by("${id}-at").textContent`);
const focus = (id) => run(`by("${id}").focus()`);

async function checkCursor() {
  const steps = [
    ["0 µs", "0 waiting, 1 worker; running jobs: 1.1"],
    ["400 µs", "1 waiting, 1 worker; running jobs: 1.1"],
    ["900 µs", "2 waiting, 1 worker; running jobs: 1.1"],
    ["1.5 ms", "2 waiting, 2 workers; running jobs: 1.1, 2.2"],
    ["1.6 ms", "2 waiting, 2 workers; running jobs: 1.1, 2.2; job 1.3 is refused: full"],
    ["5 ms", "1 waiting, 2 workers; running jobs: 2.1, 2.2"],
    ["6.5 ms", "0 waiting, 2 workers; running jobs: 1.2, 2.1"],
    ["9 ms", "0 waiting, 2 workers; running jobs: 1.2"],
    ["9.8 ms", "0 waiting, 2 workers; no job is running"],
    ["29.8 ms", "0 waiting, 1 worker; no job is running"],
  ];
  await open(moments);
  await focus("picture");
  await pressed("Home");
  for (const [when, what] of steps) {
    const said = await cursor();
    mark(said === `At ${when}: ${what}.`, `at the cursor by keys is ${said}, not ${when}: ${what}`);
    await pressed("ArrowRight");
  }
  mark(await run('return by("picture").getAttribute("aria-valuetext") === by("picture-at").textContent'), "the cursor isn't said to who can't see it");
  await pressed("Home", "ArrowRight", "ArrowRight", "ArrowLeft");
  mark(/^At 400 µs:/.test(await cursor()), `the cursor doesn't go back: ${await cursor()}`);
  const where = async (ms) => run(`by("picture").scrollIntoView(); const { left, top, width, height } = by("picture").firstChild.getBoundingClientRect(), box = by("picture").firstChild.viewBox.baseVal, scale = Math.min(width / box.width, height / box.height);
    return { x: left + (width - box.width * scale) / 2 + (92 + 680 * ${ms} / 29.8) * scale, y: top + height / 2 };`);
  for (const [ms, said] of [[7, /^At 7(\.0\d)? ms: 0 waiting, 2 workers; running jobs: 1\.2, 2\.1\.$/], [1.61, /^At 1\.6 ms: 2 waiting, .*; job 1\.3 is refused: full\.$/], [29.8, /^At 29\.8 ms: 0 waiting, 1 worker; no job is running\.$/]]) {
    await send("Input.dispatchMouseEvent", { type: "mouseMoved", ...(await where(ms)) });
    mark(said.test(await cursor()), `at the cursor by the pointer, at ${ms} ms, is ${await cursor()}`);
  }
  const clock = await run('pictures.picture.began = Date.UTC(2026, 10, 30, 7, 5, 25); point("picture", 0, 3); return by("picture-at").textContent');
  mark(/^At 1\.5 ms, 2026-11-30T07:05:25\.001Z: 2 waiting/.test(clock), `the clock at the cursor: ${clock}`);
  await run('grey("verdict"); document.querySelectorAll("[role=group] button")[0].click()');
  await shown();
  await focus("picture");
  for (const [key, said] of [["Home", "After event 1 of 4: 0 waiting, 1 worker; running jobs: 1.1."], ["ArrowRight", "After event 2 of 4: 1 waiting, 1 worker; running jobs: 1.1."],
    ["ArrowRight", "After event 3 of 4: 1 waiting, 2 workers; running jobs: 1.1, 1.3."], ["PageUp", "After event 4 of 4: 1 waiting, 2 workers; running jobs: 1.1, 1.3; job 1.4 is refused: full."]]) {
    await pressed(key);
    mark((await cursor()) === said, `at the cursor without times is ${await cursor()}, not ${said}`);
  }
  await open(`core = 1\nmax = 1\nqueue = 60000\n---\nevent,caller,number\nsubmit,1,1\nsubmit,1,2\nsubmit,1,3\n`);
  await focus("picture");
  await pressed("End");
  mark((await cursor()) === "After event 3 of 3: 2 waiting, 1 worker; running jobs: 1.1.", `at the cursor under a queue that is out of sight is ${await cursor()}`);
  await open("core = 1\nmax = 64\nqueue = 2\n---\nevent,caller,number,reply,core,max\nresize,,,,1,2\nsubmit,1,1,core,,\nsubmit,1,2,queued,,\n");
  await focus("picture");
  await pressed("End");
  mark((await cursor()) === "After event 3 of 3: 1 waiting, 1 worker; running jobs: 1.1.", `at the cursor of a pool that is resized first is ${await cursor()}`);
  const removed = await run('return saidAt({ marks: { ...pictures.picture.marks, signs: [{ name: "1.2", what: "removed", at: 3 }, { what: "culled", at: 3 }] } }, 786, 3, 680)');
  mark(/; job 1\.2 is removed; a worker is culled\.$/.test(removed), `what is said of a removal: ${removed}`);
  await open(logs.large);
  await focus("picture");
  await pressed("Home");
  const gathered = "From 0 µs to 572 µs: at most 13 waiting, 2 workers; refused by a full queue 0, by a closed pool 0.";
  mark((await cursor()) === gathered, `at the cursor of a gathered picture is ${await cursor()}`);
  await open(`core = 1\nmax = 1\nqueue = [1, 2]\n---\nat,takes\n7,10\n8,10\n9,10\n`);
  await focus("simulated-picture");
  await pressed("Home");
  mark((await cursor("simulated-picture")) === "At 0 µs: 0 waiting, 1 worker; running jobs: 1.1.", `at the cursor of a load is ${await cursor("simulated-picture")}`);
}

// A picture that was zoomed, beside the program's answer to the same text with the same keys; and two on one scale.
async function checkZoom() {
  const drawn = async (id, wanted) => {
    for (let i = 0; i < 100 && (await run(`return by("${id}").firstChild?.dataset.from ?? ""`)) !== wanted; i++) await new Promise((done) => setTimeout(done, 50));
    return run(`return { from: by("${id}").firstChild.dataset.from ?? "", to: by("${id}").firstChild.dataset.to ?? "", waiting: by("${id}").firstChild.dataset.waiting, workers: by("${id}").firstChild.dataset.workers, svg: pictures["${id}"].svg, off: by("${id.replace("picture", "whole")}").hidden }`);
  };
  const told = (keys, text = moments) => run(`if (!module) await load(by("module").textContent); return new TextDecoder().decode(answer("timeline", bytes(${JSON.stringify(keys + text)})).output)`);
  await send("Emulation.setDeviceMetricsOverride", { width: 1280, height: 900, deviceScaleFactor: 1, mobile: false });
  await open(moments);
  const at = (x) => run(`by("picture").scrollIntoView(); const to = by("picture").firstChild.getScreenCTM(), it = new DOMPoint(${x}, 200).matrixTransform(to); return { x: it.x, y: it.y }`);
  // From 2.07 ms to 7.07 ms of 29.8 ms, on an axis of 680 pixels.
  const [left, right] = [92 + (680 * 2) / 29.8, 92 + (680 * 7) / 29.8];
  for (const [type, x, buttons] of [["mouseMoved", left, 0], ["mousePressed", left, 1], ["mouseMoved", (left + right) / 2, 1], ["mouseMoved", right, 1], ["mouseReleased", right, 0]])
    await send("Input.dispatchMouseEvent", { type, button: type === "mouseMoved" && !buttons ? "none" : "left", buttons, clickCount: 1, ...(await at(x)) });
  for (let i = 0; i < 100 && (await run('return by("whole").hidden')); i++) await new Promise((done) => setTimeout(done, 50));
  const dragged = await drawn("picture", await run('return by("picture").firstChild.dataset.from'));
  mark(Math.abs(dragged.from - 2070) < 60 && Math.abs(dragged.to - 7070) < 60, `a drag shows ${dragged.from} to ${dragged.to}`);
  mark(dragged.svg === (await told(`from = ${dragged.from}\nto = ${dragged.to}\n`)), "a drag isn't drawn as the program draws it");
  await run(`await zoom("picture", [1070n, 6070n])`);
  const zoomed = await drawn("picture", "1070");
  mark(zoomed.svg === (await told("from = 1070\nto = 6070\n")) && !zoomed.off, "a span isn't drawn as the program draws it");
  await focus("picture");
  await pressed("Home");
  for (const said of ["At 1 ms: 2 waiting, 1 worker; running jobs: 1.1.", "At 1.5 ms: 2 waiting, 2 workers; running jobs: 1.1, 2.2.", "At 1.6 ms: 2 waiting, 2 workers; running jobs: 1.1, 2.2; job 1.3 is refused: full.", "At 5 ms: 1 waiting, 2 workers; running jobs: 2.1, 2.2."]) {
    mark((await cursor()) === said, `at the cursor of a part is ${await cursor()}, not ${said}`);
    await pressed("ArrowRight");
  }
  await run('by("whole").click()');
  const whole = await drawn("picture", "");
  mark(whole.svg === (await told("")) && whole.off, "the whole history isn't drawn as at first");
  await focus("picture");
  await pressed("Home");
  await send("Input.dispatchKeyEvent", { type: "keyDown", key: "+", text: "+" });
  // Half of 29.8 ms about the first event: the half of that before it is cut.
  mark((await drawn("picture", "70")).to === "7520", `+ shows up to ${(await drawn("picture", "70")).to}`);
  await send("Input.dispatchKeyEvent", { type: "keyDown", key: "-", text: "-" });
  await drawn("picture", "70");
  await open(moments);
  await run('by("one-scale").click()');
  const [own, simulated] = [await drawn("picture", "70"), await drawn("simulated-picture", "70")];
  for (const key of ["from", "to", "waiting", "workers"]) mark(own[key] === simulated[key], `two on one scale have ${key} ${own[key]} and ${simulated[key]}`);
  mark(await run('return by("picture").parentNode.nextElementSibling === by("simulated-picture").parentNode'), "the simulated pool isn't below the log");
  await run(`await zoom("simulated-picture", [1070n, 6070n])`);
  mark((await drawn("picture", "1070")).to === "6070" && (await drawn("simulated-picture", "1070")).to === "6070", "two on one scale aren't zoomed alike");
  await run('by("one-scale").click()');
  mark((await drawn("picture", "")).off && (await drawn("simulated-picture", "")).off, "two that are apart again aren't whole");
}

// What is shown first, with its units.
async function checkOrder() {
  await send("Emulation.setDeviceMetricsOverride", { width: 400, height: 850, deviceScaleFactor: 1, mobile: false });
  await open(moments);
  const order = ["verdict", "picture", "picture-at", "numbers", "history", "limits", "rows", "sizes", "simulated", "simulated-picture", "pools"];
  const tops = await run(`scrollTo(0, 0); return ${JSON.stringify(order)}.map((id) => by(id)?.getBoundingClientRect().top ?? 0)`);
  mark(tops.every((top, index) => index === 0 || top > tops[index - 1]), `the order of what is shown: ${tops}`);
  await send("Emulation.setDeviceMetricsOverride", { width: 1280, height: 900, deviceScaleFactor: 1, mobile: false });
  const { wide, top } = await run('const box = by("picture").getBoundingClientRect(); return { wide: box.width, top: box.top }');
  mark(wide > 1200 && top < 300, `the picture is ${wide} wide, and begins at ${top}`);
  const numbers = await run('return [...by("numbers").tBodies[0].rows].map((row) => [...row.cells].slice(1).map((cell) => cell.textContent).join(" "))');
  for (const line of ["submissions  5 jobs", "core  1 job", "most_workers  2 workers", "wait_median  0 µs", "wait_most  5.6 ms", "run_most  5 ms", "refused 1 1 job", "verdict  legal"]) mark(numbers.includes(line), `the numbers have no ${line}: ${numbers}`);
}

async function checkFiles() {
  for (const [name, whole] of files) writeFileSync(`${folder}/${name}`, whole);
  const texts = Object.fromEntries(files);
  const seenFiles = async (code) => {
    if (code) await run(`seen = {}; grey("verdict"); ${code}`);
    return { ...(await shown()), ...(await run('return { hidden: by("files").hidden, names: [...by("which").options].map((it) => it.text.split(",")[0]).join(), chosen: by("which").selectedIndex, notes: by("notes").innerText, first: by("which").options[0]?.text }')) };
  };
  await choose(...files.map(([name]) => name));
  want("files of two records", await seenFiles(), {
    hidden: false, names: "orders-00001.csv,orders-00002.csv,orders-00004.csv,mails-00001.csv", chosen: 0, verdict: /^legal/, whole: texts["orders-00001.csv"], first: "orders-00001.csv, from 2026-11-30T07:05:00.000Z, 10 s",
    notes: "orders-00004.csv comes after a missing file: orders-00003.csv.\norders-00004.csv begins 5 s after the end of orders-00002.csv.\nmails-00001.csv is of another record: mails 7 2, not orders 7 1.",
  });
  want("the next file", await seenFiles('by("next").click()'), { chosen: 1, whole: texts["orders-00002.csv"], verdict: /^legal/ });
  await focus("which");
  await run('seen = {}; grey("verdict")');
  await pressed("ArrowDown");
  want("a file by keys", await seenFiles(), { chosen: 2, whole: texts["orders-00004.csv"] });
  want("the file before", await seenFiles('by("previous").click()'), { chosen: 1, whole: texts["orders-00002.csv"] });
  await run(`seen = {}; grey("verdict"); const data = new DataTransfer();
    for (const name of ["x-10.csv", "x-9.csv", "x-7.csv"]) data.items.add(new File([${JSON.stringify(moments)}], name));
    document.body.dispatchEvent(new DragEvent("drop", { dataTransfer: data, bubbles: true, cancelable: true }));`);
  want("files that are dropped", await seenFiles(), { names: "x-7.csv,x-9.csv,x-10.csv", notes: "x-9.csv comes after a missing file: x-8.csv.", picture: "12" });
  want("one file", { ...(await open(moments)), hidden: await run('return by("files").hidden') }, { hidden: true, verdict: "legal" });
}

// Files of which the field shows the first lines, beside the program's answers to the whole of them.
async function checkLong() {
  const mebibyte = 2 ** 20, told = (words, input) => spawnSync(look, [words], { input, maxBuffer: 1 << 26 }).stdout.toString();
  const sized = { "long-00001.csv": longLog(1.5 * mebibyte), "long-00002.csv": longLog(16 * mebibyte - 1000), "long.csv": longLog(16 * mebibyte + 1), "load.csv": longLoad(4 * mebibyte), "long-load.csv": longLoad(4 * mebibyte + 1) };
  for (const [name, whole] of Object.entries(sized)) writeFileSync(`${folder}/${name}`, whole);
  const linesOf = (whole) => (whole.split("\n").length - 1).toLocaleString("en");
  const own = async (name, got) => {
    const whole = sized[name], { length } = got.whole, { numbers, svg } = await run('return { numbers: tables["copy-numbers"], svg: pictures.picture.svg }');
    want(name, got, { verdict: "legal", isGood: true, fields: "1,1,100", isCarried: true, old: 0, cut: new RegExp(`^The field shows the first ${linesOf(got.whole)} of ${linesOf(whole)} lines, ${(whole.length / mebibyte).toFixed(1)} MiB\\.`) });
    mark(length > 100000 && length <= 200000 && whole.startsWith(got.whole), `${name}: the field has ${length} characters`);
    mark(told("judge", whole) === "legal\n" && numbers === told("stats", whole) && svg === told("timeline", whole), `${name}: the page doesn't answer as the program`);
  };
  await own("long-00001.csv", await choose("long-00001.csv", "long-00002.csv"));
  await run('seen = {}; grey("verdict"); by("next").click()');
  const longest = await shown();
  await own("long-00002.csv", longest);
  mark(/\nthe load is the first \d+ of \d+ events of the log, since a load has at most 4 MiB$/.test(longest.simulated), `a load of a log of 16 MiB: ${longest.simulated}`);
  await run('await zoom("picture", [1000000n, 1000100n])');
  mark((await run("return pictures.picture.svg")) === told("timeline", `from = 1000000\nto = 1000100\n${sized["long-00002.csv"]}`), "a part of 16 MiB isn't drawn as the program draws it");
  want("a size of a long file", await type("queue", "5"), { verdict: "legal", fields: "1,1,5", cut: / lines, 16\.0 MiB\./, whole: /^core = 1\nmax = 1\nqueue = 5\n---\nevent/ });
  const edited = await run('const field = by("rows"); field.value = field.value.slice(0, field.value.indexOf("finish")); field.dispatchEvent(new Event("input", { bubbles: true }));').then(shown);
  want("a long text that is edited", edited, { verdict: "legal", picture: "2", replies: 2, cut: /^You edited the field, so what it shows is the whole text now\./ });
  want("a file that is too long", await choose("long.csv"), { verdict: /^refused input TooLong\nIt is too long: a log has at most 16 MiB, a load 4 MiB, .*\nresil: an input may have at most 16777216 bytes/, isGood: false, picture: "", cut: / lines, 16\.0 MiB\. The whole text is checked\./ });
  writeFileSync(`${folder}/longer.csv`, sized["long.csv"] + "finish,1,1,,,,9\n".repeat(70000));
  want("a file that isn't read to its end", await choose("longer.csv"), { verdict: /^refused input TooLong/, picture: "", cut: /^The field shows the first [\d,]+ of more than [\d,]+ lines, 17\.1 MiB\. If you/ });
  want("a load of 4 MiB", await choose("load.csv"), { verdict: "a load", isCarried: true, pools: 1, simulated: /\nthe chart shows the first \d+ of \d+ jobs$/, cut: / lines, 4\.0 MiB\./ });
  mark((await run('return tables["copy-pools"]')) === told("simulate", sized["load.csv"]), "a load of 4 MiB isn't answered as by the program");
  want("a load that is too long", await choose("long-load.csv"), { verdict: /^refused input TooLong\nIt is too long: .* a load 4 MiB, .*\nresil: an input may have at most 4194304 bytes/, isCarried: false, simulated: /^refused input TooLong/ });
  want("a short text after that", await open(moments), { verdict: "legal", cut: "" });
}

async function checkAddress() {
  const fields = () => run('return { fields: [...sizes, "idle_for", "rate", "mean", "seconds"].map((key) => by("sizes").elements[key].value).join("; "), told: by("address").hidden ? "" : by("address").textContent, hash: location.hash }');
  want("an address", { ...(await visit("#core=2&max=4,8&queue=50&idle_for=7&rate=200&mean=10&seconds=2")), ...(await fields()) }, { fields: "2; 4, 8; 50; 7; 200; 10; 2", told: "", pools: 2, isCarried: true, verdict: "legal" });
  const wrong = await visit("#core=99&max=2.5&queue=5&frob=1&seconds=61&mean=x");
  want("bad values", { ...wrong, ...(await fields()) }, { fields: "1; 2; 5; 20000; 100; 30; 10", pools: 1, isCarried: true, hash: "#core=1&max=2&queue=5&idle_for=20000&rate=100&mean=30&seconds=10" });
  for (const [index, line] of ["core=99", "max=2.5", "frob=1", "seconds=61", "mean=x"].entries())
    mark((await fields()).told.split("\n")[index]?.startsWith(`The address has ${line}: `), `what is told of ${line}: ${(await fields()).told}`);
  await type("rate", "300");
  want("a field that was touched", await fields(), { hash: "#core=1&max=2&queue=5&idle_for=20000&rate=300&mean=30&seconds=10" });
  await run('grey("simulated"); location.hash = "#core=3&max=3"');
  want("an address that changes", { ...(await shown()), ...(await fields()) }, { fields: "3; 3; 5; 20000; 300; 30; 10", isCarried: true, told: "" });
  await open(moments);
  want("a log", await fields(), { hash: "", fields: "1; 2; 2, 4, 8; 20000; 300; 30; 10" });
  want("no address", { ...(await visit()), ...(await fields()) }, { hash: "", told: "", isCarried: true });
}

async function checkSaved() {
  await open(moments);
  const saved = await run(`const kept = [], make = URL.createObjectURL;
    URL.createObjectURL = (blob) => (kept.push(blob), make(blob));
    HTMLAnchorElement.prototype.click = function () { kept.push(this.download); };
    point("picture", 300);
    by("save").click();
    URL.createObjectURL = make;
    navigator.clipboard.writeText = async (text) => { kept.push(text); };
    for (const id of ["copy", "copy-numbers", "copy-pools"]) by(id).click();
    await new Promise((done) => setTimeout(done, 50));
    return [await kept[0].text(), ...kept.slice(1), by("copy").textContent];`);
  mark(saved[0].startsWith("<svg xmlns") && saved[0].endsWith("</svg>\n") && !saved[0].includes("cursor"), `the saved picture: ${saved[0].slice(0, 80)}`);
  const begins = ["resil.svg", "event,caller,number,reply,core,max,at\n", "name,caller,value\n", "core,max,queue,submitted,", "Copied"];
  for (const [index, front] of begins.entries()) mark(saved[index + 1]?.startsWith(front), `what is saved or copied: ${saved[index + 1]?.slice(0, 80)}, not ${front}`);
}

// From the opened page to an example, along its picture, and to the table of a load, without a pointer.
async function checkKeys() {
  await visit();
  const stops = [];
  for (let i = 0; i < 40 && stops.at(-1) !== "copy-pools"; i++) {
    await pressed("Tab");
    stops.push(await run('return document.activeElement.id || document.activeElement.name || document.activeElement.textContent.slice(0, 20)'));
  }
  const order = ["file", "picture", "save", "copy", "copy-numbers", "core", "max", "queue", "rows", "idle_for", "seconds", "simulated-picture", "copy-pools"];
  mark(order.every((stop, index) => stops.includes(stop) && (index === 0 || stops.indexOf(stop) > stops.indexOf(order[index - 1]))), `Tab goes to ${stops}`);
  await visit();
  await pressed("Tab", "Tab");
  await run('seen = {}; grey("verdict")');
  await pressed("Enter");
  want("Enter", await shown(), { verdict: "legal", picture: "12" });
  while ((await run("return document.activeElement.id")) !== "picture") await pressed("Tab");
  await pressed("Home", "ArrowRight", "End");
  mark(/^At 29\.8 ms: 0 waiting, 1 worker;/.test(await cursor()), `the picture by keys: ${await cursor()}`);
}

try {
  const { targetInfos } = await send("Target.getTargets"), { targetId } = targetInfos.find(({ type }) => type === "page");
  ({ sessionId: session } = await send("Target.attachToTarget", { targetId, flatten: true }));
  await send("Page.enable");
  want("the first example", await visit(), { verdict: "legal", picture: "4", fields: "1,2,1" });
  const checks = [checkHeads, checkWays, checkCommands, checkErrors, checkLoads, checkLooks, checkOrder, checkCursor, checkZoom, checkFiles, checkLong, checkAddress, checkSaved, checkKeys];
  for (const check of checks.filter(({ name }) => !some.length || some.includes(name)))
    await check().catch((error) => mark(false, `${check.name} broke off: ${error.stack}`));
} catch (error) {
  mark(false, `the browser broke off: ${error.stack}`);
}
browser.kill();
