// Asking `pq`, and what was found, in the words of the reader. As companion/pqparts/finding.py and spoken.py. `ask(words, first, second)`
// gives the status, the reply as bytes, and the line.
"use strict";

const MOST_CORES = 20, COUNTED = 10n ** 15n;
const textOf = (bytes) => new TextDecoder().decode(bytes);

// What is said of a run without an answer: of a file that is refused also what the code means, and the line. As `fault` of program.py.
function faultSaid({ status, line }) {
  const refused = line.match(/^pq: refused \d code (\d+) line (\d+)$/);
  if (!refused) return line || `pq ended with status ${status}`;
  const [, code, at] = refused;
  return `${line}: ${CODES[code] ?? "refused"}${at === "0" ? "" : `, line ${at}`}`;
}

// The reply of a call that gives one.
async function called(ask, words, first, second) {
  const said = await ask(words, first, second);
  if (said.status > 1) throw new Stop(faultSaid(said));
  return said;
}

// Stops where `pq` judges a text not to be valid.
async function judged(ask, words, first, text) {
  const said = await called(ask, words, first, text);
  if (said.status !== 0 || textOf(said.reply) !== "valid\n") throw new Stop(`the proof did not check: ${words.join(" ")} says ${stripped(textOf(said.reply))}`);
}

// The text of a verdict that was judged to be valid.
async function solved(ask, kind, content) {
  const { reply } = await called(ask, ["solve", kind, "1"], content);
  await judged(ask, ["check", kind, "1", "2"], content, reply);
  return reply;
}

const placed = (cycle, places) => cycle.map(([one, other, row]) => [one, other, row === null ? null : places[row - 1]]);
const rowsOf = (cycle) => [...new Set(cycle.map(([, , row]) => row).filter((row) => row !== null))].sort((a, b) => a - b);

// Cores that share no row, one after another, each judged.
async function findCores(ask, side, found) {
  let left = side.rows.map((_, at) => at);
  while (found.cores.length < MOST_CORES) {
    const content = asRows(side, left), said = await called(ask, ["core", "rows", "1"], content);
    if (said.status !== 0) return;
    await judged(ask, ["check-core", "rows", "1", "2"], content, said.reply);
    const core = coreOf(textOf(said.reply)), named = new Set(core.rows.map((row) => left[row - 1]));
    found.cores.push({ rows: core.rows.map((row) => left[row - 1]), cycle: placed(core.cycle, left), content, text: said.reply });
    left = left.filter((place) => !named.has(place));
  }
}

// Stops where `pq` doesn't judge a cycle over these rows to be valid.
async function judgeCycle(ask, side, places, cycle) {
  const lines = cycle.map(([one, other, row]) => `${one} ${other} ${row === null ? "flip" : `row ${places.indexOf(row) + 1}`}\n`).join("");
  const text = `pq-verdict 2\nkind rows\ncolumns ${side.things.length}\nanswer no\nside 1\ncycle ${cycle.length}\n${lines}end\n`;
  await judged(ask, ["check", "rows", "1", "2"], asRows(side, places), bytesOf(text));
}

// Takes the rows in turn, each that agrees with those taken before; the others are set aside, each with the cycle that shows why.
async function setAside(ask, side, found) {
  let waiting = side.rows.map((_, at) => at);
  const agreed = [];
  while (waiting.length) {
    const further = bytesOf(waiting.map((place) => `${side.rows[place].join(" ")}\n`).join(""));
    const session = sessionOf(textOf((await called(ask, ["extend", "rows", "1", "2"], asRows(side, agreed), further)).reply));
    const first = session.taken.findIndex((isTaken, at) => !isTaken && !session.cycles.has(at + 1));
    const done = first < 0 ? session.taken.length : first;
    for (let at = 0; at < done; at++) {
      const place = waiting[at];
      if (session.taken[at]) {
        agreed.push(place);
        continue;
      }
      const cycle = placed(session.cycles.get(at + 1), [...agreed, place]), named = rowsOf(cycle);
      await judgeCycle(ask, side, named, cycle);
      found.aside.push({ row: place, others: named.filter((row) => row !== place), cycle });
    }
    waiting = waiting.slice(done);
  }
  found.agreed = agreed.sort((a, b) => a - b);
  found.agreedText = await solved(ask, "rows", asRows(side, found.agreed));
  if (!verdictOf(textOf(found.agreedText)).isYes) throw new Stop("the rows that pq took one after another have no order");
}

// The answer of `pq` to a question, judged; after a no with cores, the rows that agree, and those set aside.
async function asked(ask, question) {
  const past = tooLarge(question);
  if (past) throw new Stop(past);
  const reply = await solved(ask, question.kind, question.content), verdict = verdictOf(textOf(reply));
  if (verdict.isYes) return { reply, verdict, contradiction: null };
  const found = { cores: [], agreed: [], agreedText: null, aside: [] }, [side] = question.sides;
  await findCores(ask, side, found);
  await setAside(ask, side, found);
  return { reply, verdict, contradiction: found };
}

// What was asked.
function questionSaid(question) {
  const [things, rows] = question.called;
  return question.kind === "circular"
    ? `Is there an order of the ${things} round a circle in which the marks of each of the ${rows} stand together?`
    : `Is there an order of the ${things} in which those of each of the ${rows} stand together?`;
}

// How many orders a tree stands for, or null where these are more than can be said. Round a circle those that begin with thing 1.
function ordersOf(tree, isCircle) {
  let found = 1n;
  for (const [node, depth] of innerNodes(tree)) {
    const count = node.children.length - (isCircle && depth === 0 ? 1 : 0);
    if (node.isTurning) found *= 2n;
    else if (count >= 20) return null;
    else for (let factor = 2n; factor <= BigInt(count); factor++) found *= factor;
    if (found >= COUNTED) return null;
  }
  return found;
}

// The tree of an answer: of a no that of the rows that agree.
const treeOfAnswer = (finding) =>
  treeOf((finding.verdict.isYes ? finding.verdict : verdictOf(textOf(finding.contradiction.agreedText))).trees[0]);

// The answer as sentences: yes or no, of a no how many agree, and how many orders there are.
function answerLines(question, finding) {
  const [things, rows] = question.called, [side] = question.sides, found = [];
  let ofWhich = "";
  if (finding.verdict.isYes) {
    found.push(`Yes: there is such an order of the ${things}.`);
  } else {
    const kept = finding.contradiction.agreed.length, aside = finding.contradiction.aside.length;
    found.push(`No: there is no such order of the ${things}.`);
    found.push(`Taken in turn, ${kept} of the ${rows} agree, and ${aside} ${aside === 1 ? "was" : "were"} set aside, each since it contradicts some that were taken before it.`);
    ofWhich = ` in which the ${kept} agree`;
  }
  const count = ordersOf(treeOfAnswer(finding), side.isCircle);
  const said = count === 1n ? "There is 1 order" : `There are ${count === null ? "a thousand million million or more" : count} orders`;
  return [...found, `${said} of the ${things}${ofWhich}${side.isCircle ? ", rotations not counted" : ""}.`];
}

// What the tree fixes, as sentences.
function fixedLines(question, finding) {
  const [things] = question.called, [side] = question.sides;
  const circle = side.isCircle ? [`Each order below may be begun at any other of the ${things}, round the circle.`] : [];
  return [...circle, ...inWords(treeOfAnswer(finding), side.things, things)];
}

const pairSaid = (things, one, other, isBefore) => `${things[one - 1]} stands ${isBefore ? "before" : "after"} ${things[other - 1]}`;

// A cycle read aloud: each step from the order of two things to that of the next two, by a row that has two things and lacks a third.
function stepsOf(cycle, things, rows) {
  return cycle.map(([one, other, row], number) => {
    const [thenOne, thenOther] = cycle[(number + 1) % cycle.length];
    const now = pairSaid(things, one, other, number % 2 === 0), then = pairSaid(things, thenOne, thenOther, number % 2 === 1);
    if (row === null) return `${now}; turned round: ${then}.`;
    const [has, lacks] = thenOne === other ? [[one, thenOther], other] : [[thenOne, other], one];
    return `${now}; ${rows[row]} has ${things[has[0] - 1]} and ${things[has[1] - 1]} and lacks ${things[lacks - 1]}, so ${then}.`;
  });
}

// The names of the rows as an answer no speaks of them, complements named as such.
const cutNames = (side) => side.names.map((name, at) => (side.whole && side.rows[at] !== side.whole[at] ? `the complement of ${name}` : name));
