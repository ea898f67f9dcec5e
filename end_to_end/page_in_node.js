// Runs the parts of the page that need no browser, in node: `node page_in_node.js PAGE CASES ANSWERS`. A case is a run of the solver that is
// in the page, or a table with how it is read.
"use strict";

const fs = require("fs"), vm = require("vm");
const [page_file, cases, answers] = process.argv.slice(2);
const text = fs.readFileSync(page_file, "utf8"), within = (id) => text.match(new RegExp(`<script id="${id}"[^>]*>([^]*?)</script>`))[1];
const NAMES = "solverOf, solved, tableQuestion, asked, answerLines, fixedLines, picturesOf, questionSaid, stepsOf, cutNames";
vm.runInThisContext(`${within("parts")}\nglobalThis.page = { ${NAMES} };`);
const run = page.solverOf(new WebAssembly.Module(Buffer.from(within("solver"), "base64")));
const latin = (bytes) => Buffer.from(bytes).toString("latin1");

function ran([words, first, second]) {
  const { status, reply, line } = run(words, Buffer.from(first, "latin1"), Buffer.from(second, "latin1"));
  return [status, latin(reply), line];
}

// What keeps each run that it makes.
const keeping = (runs) => async (words, first, second) => {
  runs.push([words, latin(first ?? []), latin(second ?? [])]);
  return run(words, first, second);
};

// Runs whose judges say of every text that it is not valid.
const distrusting = async (words, ...files) =>
  words[0].startsWith("check") ? { status: 1, reply: Buffer.from("invalid text\n"), line: "" } : run(words, ...files);

// Runs that all end with a fault.
const failing = (status) => async () => ({ status, reply: new Uint8Array(), line: `fault ${status}` });

// Why there is no answer to a question by these runs.
const stopOf = (ask, question) => page.asked(ask, question).then(() => "an answer", (stop) => stop.message);

async function said([bytes, reading]) {
  try {
    const question = page.tableQuestion(Buffer.from(bytes, "latin1"), "table", reading), runs = [];
    const finding = await page.asked(keeping(runs), question), [side] = question.sides;
    const core = finding.contradiction && finding.contradiction.cores[0];
    return {
      content: latin(question.content), notes: question.notes, warnings: question.warnings, question: page.questionSaid(question),
      answer: page.answerLines(question, finding), fixed: page.fixedLines(question, finding), pictures: page.picturesOf(question, finding),
      steps: core ? page.stepsOf(core.cycle, side.things, page.cutNames(side)) : [], runs,
      judged: await stopOf(distrusting, question), faults: await Promise.all([2, 3, 4, 5, 6].map((status) => stopOf(failing(status), question))),
    };
  } catch (stop) {
    if (stop.constructor.name !== "Stop") throw stop;
    return { stop: stop.message };
  }
}

// Why there is no answer about a file of pq, or that there is one.
const plainSaid = ([kind, content]) =>
  page.solved(async (...words) => run(...words), kind, Buffer.from(content, "latin1")).then(() => "an answer", (stop) => stop.message);

// What a run gives for which the stack may be too small: its answer, or why there is none.
function ranDeep(one) {
  try {
    return ran(one);
  } catch (stop) {
    if (stop.constructor.name !== "Stop") throw stop;
    return stop.message.split(",")[0];
  }
}

async function main() {
  const { runs, deep, tables, plain } = JSON.parse(fs.readFileSync(cases, "utf8")), found = [];
  for (const one of tables) found.push(await said(one));
  const refused = await Promise.all(plain.map(plainSaid));
  fs.writeFileSync(answers, JSON.stringify({ runs: runs.map(ran), deep: deep.map(ranDeep), tables: found, plain: refused }));
}

main();
