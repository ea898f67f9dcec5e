// A wide table as a question. As companion/pqparts/cells.py, tables.py and question.py.
"use strict";

const PRESENT = "present", ABSENT = "absent", UNKNOWN = "unknown";
const NUMBER = /^[+-]?([0-9]+([.,][0-9]*)?|[.,][0-9]+)([eE][+-]?[0-9]+)?$/;
// Names of columns and lines that are hardly finds.
const LIKE_A_SUM = /^((grand )?totals?|sums?|summen?|gesamt|insgesamt|anzahl|count|counts|n|id|nr\.?|no\.?|nummer|number|somme|suma|totale?|years?|jahre?|datum|dates?|datierung|ann[eé]e)$/i;
const MOST_COLUMNS = 2048, MOST_ROWS = 131072, MOST_BYTES = 16777216;

// A number as people write it, with a point or a comma, or null.
const numberOf = (text) => (NUMBER.test(text) ? Number(text.replace(",", ".")) : null);

// Whether a cell is this mark, or a number above the one that the mark names behind `>`.
function meets(cell, mark) {
  if (!mark.startsWith(">")) return cell === mark;
  const value = numberOf(cell), bound = numberOf(mark.slice(1));
  return value !== null && bound !== null && value > bound;
}

// Whether a cell counts. Without words of the user's: as in a `table` of pq, x and whole numbers above 0 count.
function judge(cell, marks) {
  if (cell === "" || marks.absent.includes(cell) || /^0+$/.test(cell)) return ABSENT;
  const isDigits = /^[0-9]+$/.test(cell);
  if (!marks.present.length) return cell === "x" || cell === "X" || isDigits ? PRESENT : UNKNOWN;
  if (marks.present.some((one) => meets(cell, one))) return PRESENT;
  return marks.present.some((one) => one.startsWith(">")) && numberOf(cell) !== null ? ABSENT : UNKNOWN;
}

// The marks in words.
function marksSaid(marks) {
  const given = marks.present.length ? marks.present.map(quoted).join(", ") : "x, X and whole numbers above 0";
  return `cells that count: ${given}; cells that don't: blank, 0${marks.absent.map((one) => `, ${quoted(one)}`).join("")}`;
}

const isLikeYears = (cells) => {
  const filled = cells.filter((cell) => cell);
  return filled.length > 1 && filled.every((cell) => /^(1[0-9]{3}|20[0-9]{2})$/.test(cell));
};

// How a table is read where the user says nothing.
const READING = { kind: "rows", order: null, header: 1, separator: null, lineNames: null, drop: [], marks: { present: [], absent: [] } };

// Whether the first column is one of cells and not one of names; asked for where it could be either.
function hasNoLineNames(body, where, reading) {
  if (reading.lineNames !== null) return reading.lineNames === "none";
  if (body.every((record) => judge(record.fields[0], reading.marks) !== UNKNOWN)) {
    throw unreadable(where, "the first column has marks alone, so it may be one of cells: say --line-names none, or --line-names first if these are names");
  }
  return false;
}

// A wide table, blank columns at its end left out, which is said.
function wide(text, where, reading) {
  const found = sheet(text, where, reading.separator, reading.header);
  const [header, ...body] = found.records;
  if (!body.length) throw unreadable(where, "there is a header and no line below it");
  const last = greatest(found.records.map((record) => record.fields.findLastIndex((cell) => cell) + 1));
  if (last < header.fields.length) found.notes.push(`blank columns at the end, which are left out: ${header.fields.length - last}`);
  const blank = [];
  for (let at = 1; at < last; at++) if (!found.records.some((record) => record.fields[at])) blank.push(at);
  if (blank.length) found.notes.push(`blank columns are left out: ${blank.map((at) => at + 1).join(", ")}`);
  const begin = hasNoLineNames(body, where, reading) ? 0 : 1;
  const kept = [];
  for (let at = begin; at < last; at++) if (!blank.includes(at)) kept.push(at);
  if (!kept.length) throw unreadable(where, "no column is left below the header but that of the names");
  return {
    where,
    lines: { word: "line", names: body.map((record) => (begin ? record.fields[0] : `line ${record.line}`)), places: body.map((record) => record.line) },
    columns: { word: "column", names: kept.map((at) => header.fields[at]), places: kept.map((at) => at + 1) },
    cells: body.map((record) => kept.map((at) => record.fields[at])),
    notes: found.notes,
  };
}

const keptOf = (axis, dropped) => axis.names.map((_, at) => at).filter((at) => !dropped.includes(axis.names[at]));
const part = (axis, kept) => ({ word: axis.word, names: kept.map((at) => axis.names[at]), places: kept.map((at) => axis.places[at]) });

// The table without the columns and lines of the names that are dropped, which is said.
function withoutDropped(table, drop) {
  for (const name of drop) {
    if (!table.lines.names.includes(name) && !table.columns.names.includes(name)) {
      throw unreadable(table.where, `there is no column and no line ${quoted(name)} to drop`);
    }
  }
  const lines = keptOf(table.lines, drop), columns = keptOf(table.columns, drop);
  if (drop.length) table.notes.push(`left out by --drop: ${drop.join(", ")}`);
  if (!lines.length || !columns.length) throw unreadable(table.where, "nothing is left after --drop");
  return { ...table, lines: part(table.lines, lines), columns: part(table.columns, columns), cells: lines.map((line) => columns.map((column) => table.cells[line][column])) };
}

// Stops where a name is missing or stands twice.
function namedOnce(axis, where) {
  const seen = new Map();
  axis.names.forEach((name, at) => {
    const place = axis.places[at];
    if (!name) throw unreadable(where, `${axis.word} ${place} has no name: name it, or say --header N if the header is line N`);
    if (seen.has(name)) {
      throw unreadable(where, `${axis.word}s ${seen.get(name)} and ${place} have the same name ${quoted(name)}: name one of them otherwise`);
    }
    seen.set(name, place);
  });
}

// Each cell as whether it counts. The first that is neither stops the reading, with its line and names.
function judgedCells(table, marks) {
  return table.cells.map((row, line) => {
    const verdicts = row.map((cell) => judge(cell, marks)), at = verdicts.indexOf(UNKNOWN);
    if (at >= 0) {
      const cell = quoted(row[at]);
      throw unreadable(table.where, `line ${table.lines.places[line]} (${table.lines.names[line]}), column ${table.columns.places[at]} (${table.columns.names[at]}): the cell ${cell} is neither a mark nor blank: say --marks ${cell},.. if it counts, --absent ${cell} if not, or --drop the column or the line`);
    }
    return verdicts.map((verdict) => verdict === PRESENT);
  });
}

// Warnings of columns or lines that may be no finds: sums, numbers, years, or full ones.
function suspicious(axis, texts, verdicts) {
  return axis.names.flatMap((name, at) => {
    const said = quoted(name);
    if (LIKE_A_SUM.test(name)) return [`the ${axis.word} ${said} is named like a sum, a number or a date: if it is one, say --drop ${said}`];
    if (isLikeYears(texts[at])) return [`the ${axis.word} ${said} is full of years: if these are dates, say --drop ${said}`];
    if (verdicts[at].length > 1 && verdicts[at].every((one) => one)) return [`the ${axis.word} ${said} has a mark in every cell, and fixes nothing`];
    return [];
  });
}

const across = (rows) => rows[0].map((_, at) => rows.map((row) => row[at]));
const bytesOf = (text) => new TextEncoder().encode(text);

// The bytes of a file of the kind `rows` with the rows of a side at these places, or with all.
function asRows(side, places = null) {
  const picked = places === null ? side.rows : places.map((place) => side.rows[place]);
  return bytesOf(`${side.things.length}\n${picked.map((row) => `${row.join(" ")}\n`).join("")}`);
}

// An order of the things in which those of each row stand together; or the same round a circle, where a row that has thing 1 is replaced
// by the things that it lacks, as `pq` does.
function questionOf(kind, things, rows, names) {
  if (kind === "rows") {
    const side = { things, rows, names, whole: null, isCircle: false };
    return { kind, content: asRows(side), sides: [side], notes: [], warnings: [], called: [null, null] };
  }
  const all = things.map((_, at) => at + 1);
  const sets = rows.map((row) => new Set(row));
  const cut = rows.map((row, at) => (sets[at].has(1) ? all.filter((one) => !sets[at].has(one)) : row));
  const lines = sets.map((row) => `${all.map((one) => (row.has(one) ? "1" : "0")).join("")}\n`);
  return { kind, content: bytesOf(lines.join("")), sides: [{ things, rows: cut, names, whole: rows, isCircle: true }], notes: [], warnings: [], called: [null, null] };
}

// What is past a limit of pq, or null.
function tooLarge(question) {
  const [side] = question.sides;
  if (side.things.length > MOST_COLUMNS) return `${side.things.length} things to order, and ${question.kind} takes ${MOST_COLUMNS} at most`;
  if (side.rows.length > MOST_ROWS) return `${side.rows.length} rows, and ${question.kind} takes ${MOST_ROWS} at most`;
  if (question.content.length > MOST_BYTES) return `the file for pq has ${question.content.length} bytes, and it takes ${MOST_BYTES} at most`;
  return null;
}

// The question of a wide table. Which way round it lies changes the answer, so it has to be said.
function wideQuestion(text, where, given) {
  const reading = { ...READING, ...given };
  if (reading.order !== "lines" && reading.order !== "columns") throw new Stop("which of the two are to be put in order, the lines or the columns?");
  const table = withoutDropped(wide(text, where, reading), reading.drop);
  namedOnce(table.lines, where);
  namedOnce(table.columns, where);
  const verdicts = judgedCells(table, reading.marks);
  const warnings = [...suspicious(table.columns, across(table.cells), across(verdicts)), ...suspicious(table.lines, table.cells, verdicts)];
  const isByColumns = reading.order === "columns";
  const [things, others] = isByColumns ? [table.columns, table.lines] : [table.lines, table.columns];
  const rows = (isByColumns ? verdicts : across(verdicts)).map((row) => row.flatMap((is, at) => (is ? [at + 1] : [])));
  const question = questionOf(reading.kind, things.names, rows, others.names);
  question.notes = [...table.notes, marksSaid(reading.marks), `the ${reading.order} are to be put in order`];
  question.warnings = warnings;
  question.called = isByColumns ? ["columns", "lines"] : ["lines", "columns"];
  return question;
}

// The question of the bytes of a table.
function tableQuestion(bytes, where, reading) {
  const [text, encoding] = decoded(bytes, where);
  const question = wideQuestion(text, where, reading);
  question.notes.unshift(`${where}: read as ${encoding}`);
  return question;
}
