// One question in a thread of its own, which the page may stop. It is handed the bytes of the module, the bytes of the file and how they are read.
"use strict";

// The files of a proof, by their names, each with what they hold, and the commands that judge them.
function proofOf(question, finding) {
  const found = finding.contradiction, [side] = question.sides;
  const proved = [["check", question.kind, "question.in", question.content, "verdict.txt", finding.reply]];
  if (found) {
    found.cores.forEach((core, at) => proved.push(["check-core", "rows", `core${at + 1}.in`, core.content, `core${at + 1}.txt`, core.text]));
    proved.push(["check", "rows", "agreed.in", asRows(side, found.agreed), "agreed.txt", found.agreedText]);
  }
  return {
    files: proved.flatMap(([, , first, content, second, text]) => [[first, content], [second, text]]),
    commands: proved.map(([command, kind, first, , second]) => `pq ${command} ${kind} ${first} ${second}`),
  };
}

// What the page shows of a table.
async function shownTable(ask, bytes, where, reading) {
  const question = tableQuestion(bytes, where, reading), finding = await asked(ask, question);
  const [side] = question.sides, [things, rows] = question.called, found = finding.contradiction, names = cutNames(side);
  const cores = found ? found.cores.map((core) => core.rows.map((row) => names[row])) : [];
  return {
    question: questionSaid(question), answer: answerLines(question, finding), pictures: picturesOf(question, finding), fixed: fixedLines(question, finding),
    counted: [`${side.things.length} ${things}, from ${side.things[0]} to ${side.things[side.things.length - 1]}`, `${side.names.length} ${rows}`],
    notes: question.notes, warnings: question.warnings, rows, cores,
    steps: found && found.cores.length ? stepsOf(found.cores[0].cycle, side.things, names) : [],
    aside: found ? found.aside.map((one) => `${names[one.row]}: contradicts ${one.others.map((row) => names[row]).join(", ")}`) : [],
    ...proofOf(question, finding),
  };
}

// What the page shows of a file in a format of pq.
async function shownPlain(ask, bytes, kind) {
  const reply = await solved(ask, kind, bytes), verdict = verdictOf(textOf(reply));
  const orders = verdict.orders.map((order) => `In this order, by numbers: ${listed(order, 60)}.`);
  return {
    question: `The question of the kind ${kind}.`, answer: [verdict.isYes ? "Yes: there is such an order." : "No: there is no such order.", ...orders],
    pictures: [], fixed: [], counted: [], notes: [], warnings: [], rows: "rows", cores: [], steps: [], aside: [],
    files: [["question.in", bytes], ["verdict.txt", reply]], commands: [`pq check ${kind} question.in verdict.txt`],
  };
}

onmessage = async ({ data: { solver, bytes, where, kind, reading } }) => {
  const run = solverOf(new WebAssembly.Module(solver)), ask = async (...words) => run(...words);
  try {
    postMessage({ shown: await (kind ? shownPlain(ask, bytes, kind) : shownTable(ask, bytes, where, reading)) });
  } catch (stop) {
    postMessage({ stop: stop instanceof Stop ? stop.message : `this page failed: ${stop}` });
  }
};
