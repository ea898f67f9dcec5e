// Uses the page as a reader would, and sends what was seen as JSON to the check, which has put this into the page.
"use strict";

const pause = (milliseconds) => new Promise((done) => setTimeout(done, milliseconds));
const until = async (test) => {
  for (let turn = 0; turn < 1200 && !test(); turn++) await pause(50);
};
const isIdle = () => $("go").disabled === false && !$("said").textContent.endsWith("…");
let ends = 0;
const terminate = Worker.prototype.terminate;
Worker.prototype.terminate = function () {
  ends += 1;
  terminate.call(this);
};
const seen = () => ({
  ends, isOpen: $("reading").open, said: $("said").textContent, answer: $("answer").innerText,
  pictures: [...document.querySelectorAll("#answer svg")].map((one) => one.outerHTML), strange: document.querySelectorAll("#answer :is(img, script)").length,
});

// The answer after a click on the button.
async function answered() {
  $("go").click();
  await until(isIdle);
  return seen();
}

function written(text, order) {
  $("text").value = text;
  $("text").dispatchEvent(new Event("input"));
  document.querySelectorAll("input[name=order]").forEach((one) => (one.checked = one.value === order));
}

// Drops a file with these bytes, each a character of the text.
async function dropped(name, text, order) {
  const given = new DataTransfer();
  given.items.add(new File([Uint8Array.from(text, (one) => one.charCodeAt(0))], name));
  document.querySelectorAll("input[name=order]").forEach((one) => (one.checked = one.value === order));
  document.dispatchEvent(new DragEvent("drop", { dataTransfer: given }));
  await until(() => $("from").textContent === `from ${name}`);
}

// The answer where each field of how the table is read has a word, which are taken away again.
async function withFields(fields, text, order) {
  const before = Object.keys(fields).map((id) => [id, $(id).value]);
  for (const [id, value] of Object.entries(fields)) $(id).value = value;
  written(text, order);
  const found = await answered();
  for (const [id, value] of before) $(id).value = value;
  return found;
}

async function savedFiles() {
  const links = [...document.querySelectorAll("#answer a[download]")];
  return Object.fromEntries(await Promise.all(links.map(async (one) => [one.download, await (await fetch(one.href)).text()])));
}

// What answers runs in a worker, made of the page's own parts.
function answering({ data: { solver, runs } }) {
  const run = solverOf(new WebAssembly.Module(solver)), bytes = (text) => Uint8Array.from(text, (one) => one.charCodeAt(0));
  const latin = (found) => Array.from(found, (one) => String.fromCharCode(one)).join("");
  postMessage(runs.map(([words, first, second]) => {
    const { status, reply, line } = run(words, bytes(first), bytes(second));
    return [status, latin(reply), line];
  }));
}

const inWorker = (runs) => new Promise((done, failed) => {
  const own = new Worker(URL.createObjectURL(new Blob([$("parts").textContent, `\nonmessage = ${answering};`], { type: "text/javascript" })));
  own.onmessage = ({ data }) => done(data);
  own.onerror = (event) => failed(event.message);
  own.postMessage({ solver, runs });
});

// The answer to each kind that can be chosen, about its own text.
async function eachKind(kinds) {
  const found = {};
  for (const { value } of $("kind").options) {
    $("kind").value = value;
    written(kinds[value] ?? "", "columns");
    found[value] = (await answered()).said;
  }
  $("kind").value = "table";
  return found;
}

// Which rule of the page's policy is broken by a connection, by a script that isn't the page's own, and by a connection of a worker.
const broken = (act) => new Promise((done) => {
  addEventListener("securitypolicyviolation", ({ effectiveDirective }) => done(effectiveDirective), { once: true });
  setTimeout(done, 5000, "none");
  act();
});
const connect = () => fetch("http://127.0.0.1:9/").catch(() => {});
const addScript = () => document.body.append(element("script", "ends = 0"));
const brokenInWorker = () => new Promise((done) => {
  const text = "addEventListener('securitypolicyviolation', (event) => postMessage(event.effectiveDirective)); fetch('http://127.0.0.1:9/').catch(() => {});";
  new Worker(URL.createObjectURL(new Blob([text]))).onmessage = ({ data }) => done(data);
  setTimeout(done, 5000, "none");
});

async function tried(run) {
  const found = { runs: await inWorker(run.runs), unsaid: await answered() };
  written($("text").value, "columns");
  found.example = await answered();
  found.saved = await savedFiles();
  await dropped("no.csv", run.no, "columns");
  found.no = await answered();
  found.proof = await savedFiles();
  found.page = `<!DOCTYPE html>${document.documentElement.outerHTML.replace(/<script[^]*?<\/script>/g, "")}`;
  found.broken = [await broken(connect), await broken(addScript), await brokenInWorker()];
  found.fields = await withFields(run.fields, run.read, "lines");
  found.commas = await withFields({ drop: run.dropped }, run.commas, "columns");
  written(run.hostile, "columns");
  found.hostile = await answered();
  written("type,a,b\nP,1,?\nQ,1,1\n", "columns");
  found.unread = await answered();
  found.kinds = await eachKind(run.kinds);
  $("kind").value = "file of rows";
  written(run.long, null);
  $("go").click();
  await until(() => !$("stop").disabled);
  await pause(20);
  ends = 0;
  $("stop").click();
  found.stopped = { ...seen(), isReady: !$("go").disabled };
  written(run.plain, null);
  found.plain = await answered();
  return found;
}

const sent = (found) => fetch($("run").dataset.to, { method: "POST", mode: "no-cors", body: JSON.stringify(found) });
tried(JSON.parse($("run").textContent)).then(sent, (error) => sent({ failed: `${error}` }));
