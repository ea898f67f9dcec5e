// The texts that `pq` writes, and the trees in them. As companion/pqparts/program.py and trees.py.
"use strict";

const MOST_SENTENCES = 200;
const numbersOf = (words) => words.map(Number);

// The lines of a text, taken one by one.
class Lines {
  constructor(text) {
    this.left = text.split("\n").reverse();
  }

  next() {
    return this.left.pop().split(" ");
  }

  peek() {
    return this.left.length ? this.left[this.left.length - 1].split(" ")[0] : "";
  }

  // The line `cycle` with its length, and the lines of the cycle: for each its two columns, and the row of its reason, or null for `flip`.
  readCycle() {
    const count = Number(this.next()[1]);
    return Array.from({ length: count }, () => {
      const [one, other, what, row] = this.next();
      return [Number(one), Number(other), what === "row" ? Number(row) : null];
    });
  }
}

// The verdict that a text tells.
function verdictOf(text) {
  const lines = new Lines(text), found = { isYes: false, trees: [], orders: [], side: null, cycle: null };
  while (lines.left.length) {
    const [word, ...rest] = lines.next();
    if (word === "answer") found.isYes = rest[0] === "yes";
    else if (word === "tree") found.trees.push(rest.join(" "));
    else if (word === "order") found.orders.push(numbersOf(rest));
    else if (word === "side") [found.side, found.cycle] = [Number(rest[0]), lines.readCycle()];
  }
  return found;
}

// The core that a text tells: its rows, and its cycle.
function coreOf(text) {
  const lines = new Lines(text), rows = [];
  while (lines.peek() !== "cycle") {
    const [word, ...rest] = lines.next();
    if (word === "row") rows.push(Number(rest[0]));
  }
  return { rows, cycle: lines.readCycle() };
}

// What became of further rows: for each whether it was taken, and the cycles of the first that were not.
function sessionOf(text) {
  const lines = new Lines(text), taken = [], cycles = new Map();
  while (lines.left.length) {
    const [, ...rest] = lines.next();
    if (rest.length === 1 && (rest[0] === "ok" || rest[0] === "no")) {
      taken.push(rest[0] === "ok");
      if (rest[0] === "no" && lines.peek() === "cycle") cycles.set(taken.length, lines.readCycle());
    }
  }
  return { taken, cycles };
}

// The tree of a text as `pq` writes it: a leaf with its number, or children, which may be permuted, or only turned round.
function treeOf(text) {
  const stack = [];
  let root = null;
  for (const word of text.replace(/([([])/g, "$1 ").replace(/([)\]])/g, " $1").split(" ").filter((one) => one)) {
    if (word === "(" || word === "[") {
      stack.push({ leaf: null, children: [], isTurning: word === "[" });
      continue;
    }
    const node = word === ")" || word === "]" ? stack.pop() : { leaf: Number(word), children: null, isTurning: false };
    if (stack.length) stack[stack.length - 1].children.push(node);
    else root = node;
  }
  return root;
}

// The numbers at the leaves of a node from left to right.
function leavesOf(node) {
  const found = [], left = [node];
  while (left.length) {
    const one = left.pop();
    if (one.leaf !== null) found.push(one.leaf);
    else for (let at = one.children.length - 1; at >= 0; at--) left.push(one.children[at]);
  }
  return found;
}

// The inner nodes, each with its depth, from the root down.
function innerNodes(tree) {
  const found = [], left = [[tree, 0]];
  while (left.length) {
    const [node, depth] = left.pop();
    if (node.leaf !== null) continue;
    found.push([node, depth]);
    for (let at = node.children.length - 1; at >= 0; at--) left.push([node.children[at], depth + 1]);
  }
  return found;
}

// Names in a row, the middle left out of long ones.
const listed = (names, most = 12) => (names.length <= most ? names : [...names.slice(0, most - 2), "..", names[names.length - 1]]).join(", ");
const namesOf = (node, names) => leavesOf(node).map((leaf) => names[leaf - 1]);

// A node in words: its parts, each with its names.
function nodeSaid(node, names) {
  const parts = node.children.map((child) => listed(namesOf(child, names))).join("; "), count = node.children.length;
  return node.isTurning
    ? `${count} parts stand in this order, up to turning it round: ${parts}`
    : `${count} parts stand together and may change places: ${parts}`;
}

// What a tree fixes, as sentences, from the whole down to its blocks.
function inWords(tree, names, things) {
  if (tree.leaf !== null) return [`There is one of the ${things} alone: ${names[tree.leaf - 1]}.`];
  const [[root], ...inner] = innerNodes(tree);
  if (!inner.length && root.isTurning) return [`There is one order of the ${things}, up to turning it round.`];
  if (!inner.length) return [`Nothing is fixed: the ${things} may stand in any order.`];
  const found = inner.slice(0, MOST_SENTENCES).map(([node]) => `Within ${listed(namesOf(node, names), 6)}: ${nodeSaid(node, names)}.`);
  const more = inner.length > MOST_SENTENCES ? [`There are ${inner.length - MOST_SENTENCES} blocks more.`] : [];
  return [`The whole: ${nodeSaid(root, names)}.`, ...found, ...more];
}

// The leaves right below a root whose children may be permuted: nothing ties them to the others. Round a circle the tree doesn't tell.
const freeLeaves = (tree, isCircle) =>
  tree.leaf !== null || tree.isTurning || isCircle ? [] : tree.children.filter((child) => child.leaf !== null).map((child) => child.leaf);
