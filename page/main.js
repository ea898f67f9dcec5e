// What the page does: it reads the user's words, has a worker answer, and shows the answer.
"use strict";

const $ = (id) => document.getElementById(id);
const solver = Uint8Array.from(atob($("solver").textContent), (one) => one.charCodeAt(0));
const code = URL.createObjectURL(new Blob([$("parts").textContent, $("worker").textContent], { type: "text/javascript" }));
const MOST_SHOWN = 200000, MOST_LISTED = 1000;
const NOT_SHOWN = "The file is used whole, and not shown here: it is long, or no text.";
const OF_WORDS = "A word that begins with -- is a field under “How the table is read”.";
let worker = null, file = null;

const element = (name, text, ...children) => {
  const made = document.createElement(name);
  if (text) made.textContent = text;
  made.append(...children);
  return made;
};
const hasWord = (text) => / --[a-z]/.test(text);

// A list, of which the end is left out where it is very long.
function list(items, kind = "ul") {
  if (!items.length) return [];
  const rest = items.length - MOST_LISTED, more = rest > 0 ? [element("p", `and ${rest} more`)] : [];
  return [element(kind, "", ...items.slice(0, MOST_LISTED).map((one) => element("li", one))), ...more];
}

const section = (title, ...parts) => (parts.length ? [element("h2", title), ...parts] : []);
const partsIn = (id, separator) => $(id).value.split(separator).map((one) => one.trim()).filter((one) => one);

// How the user says that the table is read.
function reading() {
  const order = document.querySelector("input[name=order]:checked");
  return {
    kind: $("kind").value === "circular table" ? "circular" : "rows", order: order ? order.value : null, header: Math.max(1, Number($("header").value) || 1),
    separator: $("separator").value || null, lineNames: $("line-names").value || null, drop: partsIn("drop", "\n"),
    marks: { present: partsIn("marks", ","), absent: partsIn("absent", ",") },
  };
}

// A line with a link by which some bytes are saved.
function saved([name, bytes]) {
  const link = element("a", name), line = element("p", "", "Save ", link);
  link.href = URL.createObjectURL(new Blob([bytes]));
  link.download = name;
  line.className = "saved";
  return line;
}

// The core by name, and the steps that show it.
function coresShown({ cores, steps, rows }) {
  if (!cores.length) return [];
  const each = cores.map((core, at) => element("p", `Core ${at + 1}: ${core.join(", ")}.`));
  const about = `Each core is a set of ${rows} that have no order together, while without any one of them the others have one. So at least one of each core has to go, or be looked at again.`;
  return [element("p", about), ...each, element("p", "Why the first has none, step by step. Suppose that there were an order, turned so that the first step begins rightly."),
    ...list(steps, "ol"), element("p", "So the last step ends with the opposite of what the first begins with: there is no order.")];
}

function figure([caption, picture]) {
  const made = element("figure");
  made.innerHTML = picture;
  made.append(element("figcaption", caption));
  return made;
}

function show(shown) {
  $("said").textContent = shown.answer[0];
  const warnings = list(shown.warnings), hints = shown.warnings.some(hasWord) ? [element("p", OF_WORDS)] : [];
  warnings.forEach((one) => one.classList.add("warning"));
  $("answer").replaceChildren(
    element("p", shown.question), ...shown.answer.slice(1).map((line) => element("p", line)),
    element("p", "The verdict was judged by a second run of the solver, which makes no search: valid."),
    ...section("The picture", ...shown.pictures.map(figure)), ...section("What is fixed", ...list(shown.fixed)),
    ...section("What contradicts what", ...coresShown(shown)), ...section(`The ${shown.rows} set aside`, ...list(shown.aside)),
    ...section("What was read", ...list([...shown.counted, ...shown.notes]), ...warnings, ...hints),
    ...section("To check it", ...shown.files.map(saved), ...shown.commands.map((one) => element("p", "", element("code", one)))));
}

// A question without an answer: why, and where the fields are that it names.
function stopped(text) {
  if (!hasWord(text)) return;
  $("reading").open = true;
  $("answer").replaceChildren(element("p", OF_WORDS));
}

function ended(text) {
  if (worker) worker.terminate();
  worker = null;
  $("go").disabled = false;
  $("stop").disabled = true;
  if (text) $("said").textContent = text;
}

function go() {
  const kind = $("kind").value, isTable = !kind.startsWith("file of ");
  $("answer").replaceChildren();
  if (isTable && !reading().order) return ended("Say first which of the two are to be put in order: the columns or the lines.");
  ended("Looking for an order …");
  $("go").disabled = true;
  $("stop").disabled = false;
  worker = new Worker(code);
  worker.onmessage = ({ data }) => {
    ended(data.stop);
    if (data.shown) show(data.shown);
    else stopped(data.stop);
  };
  worker.onerror = (event) => ended(`this page failed: ${event.message}`);
  const bytes = file ? file.bytes : new TextEncoder().encode($("text").value);
  worker.postMessage({ solver, bytes, where: file ? file.name : "the table", kind: isTable ? null : kind.replace("file of ", ""), reading: reading() });
}

// The text of a file as it is read, or none where it is long or no text.
function shownText(bytes) {
  try {
    return bytes.length > MOST_SHOWN ? "" : decoded(bytes, "the file")[0];
  } catch {
    return "";
  }
}

// A file's bytes are kept as they are; the box shows them, and what is written there takes their place.
async function take(given) {
  const bytes = new Uint8Array(await given.arrayBuffer());
  file = { name: given.name, bytes };
  $("text").value = shownText(bytes);
  $("text").placeholder = $("text").value ? "" : NOT_SHOWN;
  $("from").textContent = `from ${given.name}`;
}

$("go").onclick = go;
$("stop").onclick = () => ended("Stopped.");
$("text").oninput = () => {
  file = null;
  $("from").textContent = $("file").value = $("text").placeholder = "";
};
$("file").onchange = () => $("file").files[0] && take($("file").files[0]);
document.ondragover = (event) => event.preventDefault();
document.ondrop = (event) => {
  if (!event.dataTransfer.files[0]) return;
  event.preventDefault();
  take(event.dataTransfer.files[0]);
};
