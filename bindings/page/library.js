// The library in WebAssembly: texts are copied into the module's memory and out of it. It opens nothing.
"use strict";

const LIMITS = [99999999, 99999, 999999];

const REPORTS = { check: 0, show: 1, explain: 2, json: 3, lint: 5, explainedLint: 6 };

const TYPES = [
  "", "text", "required", "digits", "optionalDigits", "date", "optionalDate", "time", "optionalTime",
  "optionalDuration", "share", "flag", "code", "optionalCode", "constant",
];

/** What the module answers where its memory can't grow any more. */
class NoRoom extends Error {}

class Library {
  /** The library of a compiled module. */
  static async load(module) {
    const library = new Library();
    library.calls = (await WebAssembly.instantiate(module, {})).exports;
    return library;
  }

  bytes(at, size) {
    return new Uint8Array(this.calls.memory.buffer, Number(at), Number(size));
  }

  /** So many bytes of the module's memory. They are given back by `free`. */
  room(size) {
    const at = this.calls.cwr_alloc(BigInt(Math.max(size, 1)));
    if (!at) throw new NoRoom();
    return at;
  }

  /** A text in the module's memory: where it stands, and how many bytes it has. */
  put(text) {
    const at = this.room(text.length);
    this.bytes(at, text.length).set(text);
    return [at, BigInt(text.length)];
  }

  free(at) {
    this.calls.cwr_free(at);
  }

  verdict(at) {
    const words = new Uint32Array(this.calls.memory.buffer, Number(at), 8);
    const [ending, groups, transactions, records, field, level, reason, detail] = words;
    return { ending, groups, transactions, records, field, level: String.fromCharCode(level), reason, detail };
  }

  /** What a call writes into a room: once more with a larger one where it had more to write. */
  written(guess, call) {
    let room = guess;
    let at = this.room(room);
    let size = Number(call(at, BigInt(room)));
    if (size > room) {
      this.free(at);
      room = size;
      at = this.room(room);
      size = Number(call(at, BigInt(room)));
    }
    const made = this.bytes(at, size).slice();
    this.free(at);
    return made;
  }

  /** A report on the text, and the verdict. */
  report(what, text, name) {
    const shown = this.put(new TextEncoder().encode(name));
    const verdict = this.room(48);
    const made = this.written(65536, (at, room) => this.calls.cwr_report(what, ...text, ...LIMITS, ...shown, at, room, verdict));
    const told = this.verdict(verdict);
    this.free(verdict);
    this.free(shown[0]);
    return { told, made };
  }

  /** The canonical text of the transmission whose records the lines carry, with all numbers made: or why there is none. */
  write(text) {
    const told = this.room(16);
    const made = this.written(Number(text[1]) + 65536, (at, room) => this.calls.cwr_write(...text, ...LIMITS, at, room, told));
    const [ending] = new Uint32Array(this.calls.memory.buffer, Number(told), 1);
    const [line] = new BigUint64Array(this.calls.memory.buffer, Number(told) + 8, 1);
    this.free(told);
    return { ending, line: Number(line), made };
  }

  /** The texts that cells of a field may hold, where they can be listed. */
  codes(kind, j) {
    const codes = [];
    const at = this.room(16);
    for (;;) {
      const size = Number(this.calls.cwr_code(...kind, j, codes.length, at, 16n));
      if (size === 0) break;
      codes.push(String.fromCharCode(...this.bytes(at, size)));
    }
    this.free(at);
    return codes;
  }

  /** The fields of a kind. */
  fields(letters) {
    const kind = this.put(letters);
    const place = this.room(24);
    const name = this.room(64);
    const fields = [];
    for (let j = 1; ; j += 1) {
      const size = Number(this.calls.cwr_field(...kind, j, place, name, 64n));
      if (size === 0) break;
      const [start, width] = new BigUint64Array(this.calls.memory.buffer, Number(place), 2);
      const [type, derived] = new Uint32Array(this.calls.memory.buffer, Number(place) + 16, 2);
      fields.push({
        name: String.fromCharCode(...this.bytes(name, size)),
        start: Number(start),
        width: Number(width),
        type: TYPES[type],
        derived: derived === 1,
        codes: this.codes(kind, j),
      });
    }
    for (const at of [kind[0], place, name]) this.free(at);
    return fields;
  }

  /** The layouts: of each kind its fields. */
  layouts() {
    const layouts = {};
    const at = this.room(8);
    for (let i = 0; Number(this.calls.cwr_kind(i, at, 8n)) === 3; i += 1) {
      const letters = this.bytes(at, 3).slice();
      layouts[String.fromCharCode(...letters)] = this.fields(letters);
    }
    this.free(at);
    return layouts;
  }
}
