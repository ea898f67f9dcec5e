// Runs of the solver, a WebAssembly module without imports. Each run has an instance of its own: its memory goes with it.
"use strict";

// A reply that is longer makes another run, with more room; few are.
const LINE_ROOM = 64, FIRST_ROOM = 1 << 20, MORE = 16;

// What a call of an instance gives. A browser has less stack for it than the program has, and a trap ends it.
function within(call) {
  try {
    return call();
  } catch (fault) {
    if (!(fault instanceof RangeError || fault instanceof WebAssembly.RuntimeError)) throw fault;
    throw new Stop(`this browser has too little room for the solver on this file, so there is no answer: the program pq has more (${fault.message})`);
  }
}

// What runs the solver of a module: `run(words, first, second)` gives the status, the reply as bytes, and the line.
function solverOf(module) {
  return (words, first = new Uint8Array(), second = new Uint8Array()) => {
    if (words.some((word) => /[\r\n]/.test(word))) return { status: 2, reply: new Uint8Array(), line: "pq: words" };
    const instance = new WebAssembly.Instance(module).exports;
    const at = (place, count) => new Uint8Array(instance.memory.buffer, Number(BigInt.asUintN(32, place)), count);
    const room = (count) => {
      const place = instance.pq_room(BigInt(count || 1));
      if (!place) throw new Stop("there is no memory for this");
      return place;
    };
    const put = (bytes) => {
      const place = room(bytes.length);
      at(place, bytes.length).set(bytes);
      return [place, BigInt(bytes.length)];
    };
    const given = [bytesOf(words.map((word) => `${word}\n`).join("")), first, second].flatMap(put);
    const line = room(LINE_ROOM), counts = room(16);
    for (let count = FIRST_ROOM; ; count *= MORE) {
      const reply = room(count);
      // The status is the last byte: a module may leave anything in the others.
      const status = within(() => instance.pq_c_run(...given, reply, BigInt(count), counts, line, BigInt(LINE_ROOM), counts + 8n)) & 255;
      const view = new DataView(instance.memory.buffer, Number(counts), 16), [written, told] = [0, 8].map((from) => Number(view.getBigUint64(from, true)));
      if (status !== 5) return { status, reply: at(reply, written).slice(), line: textOf(at(line, told)).trim() };
      instance.pq_free(reply);
    }
  };
}
