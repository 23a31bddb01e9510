'use strict';
// The proved library in a WebAssembly module. A call makes an instance of its own, so that no run leaves anything to the next.

const ANSWERS = { 0: 'done', 3: 'refused', 4: 'memory ran out', 6: 'the number of rows is out of bounds' };
const NO_ROOM = 10;
const FIRST_ROOM = 1 << 20;

// An instance of the module, and what it takes to hand it bytes.
class Instance {
  constructor(module) {
    this.exports = new WebAssembly.Instance(module, {}).exports;
  }

  // Room for this many bytes, and for a first one of 8 where there are none.
  room(count) {
    const at = this.exports.malloc(BigInt(Math.max(count, 8)));
    if (at === 0n) throw new Error('memory ran out');
    return at;
  }

  // A slice of bytes: where it is, and how many there are.
  slice(bytes) {
    const at = this.room(bytes.length);
    new Uint8Array(this.exports.memory.buffer).set(bytes, Number(at));
    return [at, BigInt(bytes.length)];
  }

  // The texts of a kind, one behind the other, and the slice of their lengths.
  texts(texts) {
    const whole = new Uint8Array(texts.reduce((sum, text) => sum + text.length, 0));
    let at = 0;
    for (const text of texts) {
      whole.set(text, at);
      at += text.length;
    }
    const lengths = new BigUint64Array(texts.map(text => BigInt(text.length)));
    const [first] = this.slice(new Uint8Array(lengths.buffer));
    return [...this.slice(whole), first, BigInt(texts.length)];
  }

  // The answer of an exported function about a run, the length of its text, and as much of it as the room takes.
  ask(name, run, size) {
    const given = [...this.texts(run.schemas), ...this.texts(run.modules), ...this.slice(run.script), BigInt(run.rows)];
    const room = this.room(size);
    const length = this.room(8);
    const answer = this.exports[name](...given, room, BigInt(size), length);
    const count = Number(new DataView(this.exports.memory.buffer).getBigUint64(Number(length), true));
    const bytes = new Uint8Array(this.exports.memory.buffer, Number(room), Math.min(count, size)).slice();
    return { answer, count, bytes };
  }
}

// Asks about a run of texts, which are bytes. Where the room was too small, asks once more with as much as it takes.
function ask(module, name, run) {
  let asked = new Instance(module).ask(name, run, FIRST_ROOM);
  if (asked.answer === NO_ROOM) asked = new Instance(module).ask(name, run, asked.count + 1);
  return { answer: ANSWERS[asked.answer] || 'unknown', bytes: asked.bytes };
}

// The report of a run, or the line of the refusal.
const reportOf = (module, run) => ask(module, 'sq_page_run', run);

// The page that steps through a run, or the line of the refusal.
const stepsOf = (module, run) => ask(module, 'sq_page_steps', run);
