// Pictures of ordered tables, as SVG: rows by first, then last place, and the tree below. As companion/pqparts/pictures.py, letter by letter.
"use strict";

const MOST_DRAWN = 2000, MOST_LEVELS = 40, MOST_LETTERS = 28;
const INK = "#1f4e79", FIXED = "#333333", FREE = "#b06000", PALE = "#888888";
const TREE_CAPTION = "Below: dark bars are blocks whose parts keep their order, up to turning the block round; dashed bars are blocks whose parts may change places. A grey name is tied to none of the others.";
const MARKS = { "&": "&amp;", "<": "&lt;", ">": "&gt;", '"': "&quot;", "'": "&#x27;" };

// A text as it may stand in HTML and SVG.
const safe = (text) => text.replace(/[^\t\n\r -\ud7ff\ue000-\ufffd\u{10000}-\u{10ffff}]/gu, "\ufffd").replace(/[&<>"']/g, (one) => MARKS[one]);

// A name that is not too long to draw.
function short(name) {
  const letters = [...name];
  return letters.length <= MOST_LETTERS ? name : `${letters.slice(0, MOST_LETTERS - 1).join("")}…`;
}

// Ascending places as stretches, each with its first and its last place.
function runsOf(places) {
  const found = [];
  for (const place of places) {
    if (found.length && found[found.length - 1][1] === place - 1) found[found.length - 1][1] = place;
    else found.push([place, place]);
  }
  return found;
}

// How much room the longest of these names takes, at so much for a letter.
const roomFor = (names, letter) => Math.trunc(letter * names.reduce((most, name) => Math.max(most, [...short(name)].length), 0));

// An SVG picture that grows downwards.
class Drawing {
  constructor(columns, rows, heads, sides) {
    this.cell = columns <= 60 ? 16 : columns <= 250 ? 8 : 4;
    this.line = rows <= 300 ? 16 : 4;
    this.left = this.line === 16 ? 20 + roomFor(sides, 6.5) : 10;
    this.top = this.cell > 4 ? 20 + roomFor(heads, this.cell === 16 ? 6.5 : 4.5) : 20;
    Object.assign(this, { columns, y: this.top, parts: [] });
  }

  x(place) {
    return this.left + place * this.cell;
  }

  rect(begin, end, title, fill = INK, height = null, extra = "") {
    const tall = height || this.line - 2, wide = (end - begin + 1) * this.cell - 1;
    this.parts.push(`<rect x="${this.x(begin)}" y="${this.y}" width="${wide}" height="${tall}" fill="${fill}"${extra}><title>${safe(title)}</title></rect>`);
  }

  text(x, y, text, { anchor = "start", fill = "#000", isTurned = false, title = null } = {}) {
    const turn = isTurned ? ` transform="rotate(-90 ${x} ${y})"` : "", more = title ? `<title>${safe(title)}</title>` : "";
    this.parts.push(`<text x="${x}" y="${y}" text-anchor="${anchor}" fill="${fill}"${turn}>${safe(text)}${more}</text>`);
  }

  heads(names, free) {
    if (this.cell <= 4) return;
    names.forEach((name, place) =>
      this.text(this.x(place) + Math.floor((this.cell * 3) / 4), this.top - 6, short(name), { fill: free.has(place) ? PALE : "#000", isTurned: true, title: name }));
  }

  rowName(name) {
    if (this.line === 16) this.text(this.left - 6, this.y + 12, short(name), { anchor: "end", title: name });
  }

  whole(title) {
    const width = this.x(this.columns) + 20, height = this.y + 12, size = this.cell === 16 ? 11 : 7;
    return `<svg xmlns="http://www.w3.org/2000/svg" width="${width}" height="${height}" viewBox="0 0 ${width} ${height}" role="img" font-family="sans-serif" font-size="${size}"><title>${safe(title)}</title>\n${this.parts.join("\n")}\n</svg>\n`;
  }
}

// The rows as a reader knows them, by their places in the order, sorted by first, then last place; empty ones come last.
function seated(side, order, chosen = null) {
  const place = new Map(order.map((number, at) => [number, at])), rows = side.whole ?? side.rows;
  const found = (chosen ?? rows.map((_, at) => at)).map((at) => [rows[at].map((number) => place.get(number)).sort((a, b) => a - b), at]);
  return found.sort(([one, at], [other, then]) =>
    Number(!one.length) - Number(!other.length) || (one.length && (one[0] - other[0] || one[one.length - 1] - other[other.length - 1])) || at - then);
}

// A picture of a table with its columns in this order. Marks are numbers to write into cells, by row and column.
function tablePicture(side, order, title, tree = null, chosen = null, marks = new Map()) {
  const rows = seated(side, order, chosen), shown = rows.slice(0, MOST_DRAWN);
  const names = order.map((number) => side.things[number - 1]);
  const drawing = new Drawing(order.length, shown.length, names, shown.map(([, row]) => side.names[row]));
  drawing.heads(names, new Set(tree ? freeLeaves(tree, side.isCircle).map((leaf) => order.indexOf(leaf)) : []));
  const place = new Map(order.map((number, at) => [number, at]));
  for (const [places, row] of shown) {
    drawing.rowName(side.names[row]);
    for (const [first, last] of runsOf(places)) {
      drawing.rect(first, last, `${side.names[row]}: ${names[first]}${last > first ? ` to ${names[last]}` : ""}`);
    }
    for (const [number, column] of marks.get(row) ?? []) {
      drawing.text(drawing.x(place.get(column)) + 2, drawing.y + 12, String(number), { fill: "#a00000" });
    }
    drawing.y += drawing.line;
  }
  if (rows.length > shown.length) {
    drawing.text(drawing.left, drawing.y + 12, `and ${rows.length - shown.length} more`);
    drawing.y += 16;
  }
  if (tree) drawTree(drawing, tree, order, names);
  return drawing.whole(title);
}

// The tree as bars: one for each inner node over its leaves, the smaller ones above.
function drawTree(drawing, tree, order, names) {
  const place = new Map(order.map((number, at) => [number, at])), nodes = innerNodes(tree);
  const deepest = nodes.reduce((most, [, depth]) => Math.max(most, depth), 0);
  drawing.y += 10;
  for (let level = Math.min(deepest, MOST_LEVELS); level >= 0; level--) {
    for (const [node, depth] of nodes) {
      if (depth !== level) continue;
      const places = leavesOf(node).map((leaf) => place.get(leaf));
      const first = places.reduce((least, one) => Math.min(least, one)), last = places.reduce((most, one) => Math.max(most, one));
      const what = node.isTurning ? "fixed up to turning it round" : "parts that may change places";
      const dashes = node.isTurning ? "" : ' stroke="#b06000" stroke-dasharray="3 2" fill-opacity="0.15"';
      drawing.rect(first, last, `${names[first]} to ${names[last]}: ${what}`, node.isTurning ? FIXED : FREE, 7, dashes);
    }
    drawing.y += 11;
  }
}

// Where the steps of a cycle stand in a picture: for each row its steps, each with the thing that the row lacks.
function lacking(cycle) {
  const found = new Map();
  cycle.forEach(([one, other, row], number) => {
    if (row === null) return;
    const column = cycle[(number + 1) % cycle.length][0] === other ? other : one;
    found.set(row, [...(found.get(row) ?? []), [number + 1, column]]);
  });
  return found;
}

// The pictures of an answer, each with its caption: of a no what agrees, and the first core with the steps of its cycle.
function picturesOf(question, finding) {
  const [side] = question.sides, tree = treeOfAnswer(finding), found = finding.contradiction;
  if (!found) return [[`The table in order. ${TREE_CAPTION}`, tablePicture(side, finding.verdict.orders[0], "the table in order", tree)]];
  const cut = { ...side, names: cutNames(side), whole: null }, [order] = verdictOf(textOf(found.agreedText)).orders;
  const pictures = [[`What agrees, in order. ${TREE_CAPTION}`, tablePicture(cut, order, "what agrees, in order", tree, found.agreed)]];
  if (found.cores.length) {
    const [core] = found.cores;
    const named = new Set([...core.cycle.flatMap(([one, other]) => [one, other]), ...core.rows.flatMap((row) => side.rows[row])]);
    let caption = "The first core. A number in red stands where its step below says that something is lacking.";
    if (named.size < order.length) caption += " What has no mark here and stands in no step is left out.";
    pictures.push([caption, tablePicture(cut, order.filter((number) => named.has(number)), "the first core", null, core.rows, lacking(core.cycle))]);
  }
  return pictures;
}
