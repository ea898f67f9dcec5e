// The bytes of a file as text, and a text as the records of a table. As companion/pqparts/texts.py.
"use strict";

// What ends a reading without an answer: the line says why, and what to do.
class Stop extends Error {}

const unreadable = (where, line) => new Stop(`${where}: ${line}`);

// What a file begins with that is no text, with what to do.
const CONTAINERS = [
  [[0x50, 0x4b, 3, 4], "a zip file, as .xlsx and .ods are: save the sheet as CSV"],
  [[0x1f, 0x8b], "a gzip file: unpack it first"],
  [[0x25, 0x50, 0x44, 0x46], "a PDF: save the table as CSV"],
  [[0xd0, 0xcf, 0x11, 0xe0], "an old office file (.xls): save the sheet as CSV"],
];
const SEPARATORS = new Map([[";", "semicolon"], [",", "comma"], ["\t", "tab"]]);
// Bytes that Windows-1252 has no character for.
const WITHOUT_CHARACTER = [0x81, 0x8d, 0x8f, 0x90, 0x9d];
const BLANKS = "[\\t-\\r\\x1c- \\x85\\xa0\\u1680\\u2000-\\u200a\\u2028\\u2029\\u202f\\u205f\\u3000]";
const AT_ENDS = new RegExp(`^${BLANKS}+|${BLANKS}+$`, "g");

const isPlain = (code) => code > 32 && code < 127;
// A text without the blanks at its ends. Most have none, which is seen at once.
const stripped = (text) =>
  text === "" || (isPlain(text.charCodeAt(0)) && isPlain(text.charCodeAt(text.length - 1))) ? text : text.replace(AT_ENDS, "");
// The greatest of these numbers, of which there may be more than a call takes; 0 where there are none.
const greatest = (numbers) => numbers.reduce((most, one) => Math.max(most, one), 0);
const begins = (bytes, start) => start.every((byte, at) => bytes[at] === byte);

// A text in quotes, as Python writes it.
function quoted(text) {
  const mark = text.includes("'") && !text.includes('"') ? '"' : "'";
  const named = { "\\": "\\\\", "\n": "\\n", "\r": "\\r", "\t": "\\t" };
  const inner = [...text].map((one) => {
    if (one === mark) return `\\${one}`;
    if (named[one]) return named[one];
    const code = one.codePointAt(0);
    if (one === " " || !/[\p{C}\p{Z}]/u.test(one)) return one;
    return code < 256 ? `\\x${code.toString(16).padStart(2, "0")}` : code < 65536 ? `\\u${code.toString(16).padStart(4, "0")}` : `\\U${code.toString(16).padStart(8, "0")}`;
  });
  return mark + inner.join("") + mark;
}

// The text of these bytes, and the name of its encoding. Bytes that are no UTF-8 are Windows-1252, which is said.
function decoded(bytes, where) {
  for (const [start, what] of CONTAINERS) if (begins(bytes, start)) throw unreadable(where, `this is ${what}`);
  if (begins(bytes, [0xef, 0xbb, 0xbf])) return [new TextDecoder("utf-8", { fatal: true, ignoreBOM: true }).decode(bytes.subarray(3)), "utf-8-sig"];
  if (begins(bytes, [0xff, 0xfe])) return [new TextDecoder("utf-16le", { fatal: true }).decode(bytes), "utf-16"];
  if (begins(bytes, [0xfe, 0xff])) return [new TextDecoder("utf-16be", { fatal: true }).decode(bytes), "utf-16"];
  if (bytes.includes(0)) throw unreadable(where, "there are zero bytes in it: no text, or UTF-16 without a mark");
  try {
    return [new TextDecoder("utf-8", { fatal: true, ignoreBOM: true }).decode(bytes), "utf-8"];
  } catch {
    const odd = WITHOUT_CHARACTER.find((byte) => bytes.includes(byte));
    if (odd !== undefined) throw unreadable(where, `no text in cp1252: the byte ${odd.toString(16)} has no character there`);
    return [new TextDecoder("windows-1252").decode(bytes), "cp1252"];
  }
}

// Takes the fields of a text one after another. A quote at the beginning of a field opens it; two quotes within stand for one.
class Splitter {
  constructor(text, separator, where) {
    Object.assign(this, { text, separator, where, at: 0, line: 0 });
  }

  // Whether a line ends here, and how long its end is.
  end() {
    const one = this.text[this.at];
    return one === "\n" ? 1 : one === "\r" ? (this.text[this.at + 1] === "\n" ? 2 : 1) : 0;
  }

  wrong(what) {
    return unreadable(this.where, `line ${this.line}: ${what}: see whether each quote is closed`);
  }

  // The rest of a field that was opened by a quote.
  inQuotes() {
    let found = "";
    for (;;) {
      if (this.at >= this.text.length) throw this.wrong("unexpected end of data");
      const one = this.text[this.at++];
      if (one === '"') {
        if (this.text[this.at] !== '"') return found;
        this.at += 1;
      } else if (one === "\n" || (one === "\r" && this.text[this.at] !== "\n")) {
        if (this.at < this.text.length) this.line += 1;
      }
      found += one;
    }
  }

  field() {
    if (this.text[this.at] === '"') {
      this.at += 1;
      const found = this.inQuotes();
      if (this.at < this.text.length && this.text[this.at] !== this.separator && !this.end()) throw this.wrong(`'${this.separator}' expected after '"'`);
      return found;
    }
    const begin = this.at;
    while (this.at < this.text.length && this.text[this.at] !== this.separator && !this.end()) this.at += 1;
    return this.text.slice(begin, this.at);
  }

  // The next record: the line of the file on which it ends, and its fields without the blanks at their ends.
  record() {
    this.line += 1;
    const fields = [];
    if (!this.end()) {
      for (;;) {
        fields.push(stripped(this.field()));
        if (this.text[this.at] !== this.separator) break;
        this.at += 1;
      }
    }
    this.at += this.end();
    return { line: this.line, fields: fields.length === 1 && fields[0] === "" ? [] : fields };
  }

  records() {
    const found = [];
    while (this.at < this.text.length) found.push(this.record());
    return found;
  }
}

const widths = (records) => [...new Set(records.filter((one) => one.fields.length).map((one) => one.fields.length))];

// Whether records are those of a table: each has as many fields as the first, which are two or more.
const fits = (records) => {
  const found = widths(records);
  return found.length === 1 && found[0] > 1;
};

// The records by each separator by which the text can be split, and the stops of the others.
function candidatesOf(text, where, separators, header) {
  const found = new Map(), stops = [];
  for (const one of separators) {
    try {
      found.set(one, new Splitter(text, one, where).records().filter((record) => record.line >= header));
    } catch (stop) {
      if (!(stop instanceof Stop)) throw stop;
      stops.push(stop);
    }
  }
  return [found, stops];
}

// The line of the header from which on the records of some separator are those of a table, or null; a table has two records or more.
function headerLine(candidates) {
  for (const records of candidates.values()) {
    const filled = records.filter((one) => one.fields.length);
    for (let at = 1; at < filled.length - 1; at++) if (fits(filled.slice(at))) return filled[at].line;
  }
  return null;
}

// The table of a text, blank lines left out, with what was found out. What separates fields is found where one separator alone fits.
function sheet(text, where, separator = null, header = 1) {
  const [candidates, stops] = candidatesOf(text, where, separator ? [separator] : [...SEPARATORS.keys()], header);
  const fitting = [...candidates.keys()].filter((one) => fits(candidates.get(one)));
  if (fitting.length > 1) {
    throw unreadable(where, `both ${fitting.map((one) => SEPARATORS.get(one)).join(" and ")} separate fields here: say --separator`);
  }
  const isSplit = [...candidates.values()].some((records) => records.some((one) => one.fields.length > 1));
  if (!fitting.length && stops.length && !isSplit) throw stops[0];
  if (!fitting.length) throw unreadable(where, misfit(candidates, header));
  const records = candidates.get(fitting[0]);
  const isBlank = (one) => !one.fields.some((field) => field);
  const notes = [`fields are separated by ${SEPARATORS.get(fitting[0]) ?? quoted(fitting[0])}`];
  if (header > 1) notes.push(`the header is line ${header}; the lines before it are left out`);
  const blank = records.filter(isBlank);
  if (blank.some((one) => one.fields.length)) notes.push(`blank lines, which are left out: ${blank.length}`);
  return { records: records.filter((one) => !isBlank(one)), notes };
}

// Why no separator gives a table, and what to say.
function misfit(candidates, header) {
  const line = headerLine(candidates);
  if (line !== null && line !== header) {
    return `lines before line ${line} have another number of fields than the table: if the header is line ${line}, say --header ${line}`;
  }
  const weight = (records) => records.reduce((sum, one) => sum + one.fields.length, 0);
  let most = null;
  for (const one of candidates.keys()) if (most === null || weight(candidates.get(one)) > weight(candidates.get(most))) most = one;
  const filled = candidates.get(most).filter((one) => one.fields.length);
  if (!filled.length) return header === 1 ? "there is nothing in it" : `there is nothing in it from line ${header} on`;
  if (greatest(filled.map((one) => one.fields.length)) < 2) return "no line has two fields that are separated by a semicolon, a comma or a tab";
  const wanted = filled[0].fields.length, record = filled.find((one) => one.fields.length !== wanted);
  return `line ${record.line} has ${record.fields.length} fields and line ${filled[0].line} has ${wanted} (separated by ${SEPARATORS.get(most) ?? most}): mend that line, or say --header N if the header is line N`;
}
