// The proved core: one WebAssembly module, whose doors are asked about one working table that
// stays at one place in its memory. Sizes are BigInt at the doors, pointers are numbers; the memory
// never grows, so that the views of it stay valid.

/** @typedef {import('./plan.js').Plan} Plan */
/** An answer's sixteen bytes, as include/star.h has them.
 * @typedef {{result: number, kind: number, number: number, out: number, in: number,
 * only: boolean, amount: number}} Answer */
/** @typedef {{kind: number, out: number, in: number}} Step */

export const MAX_JUNCTIONS = 255;
export const MAX_ROWS = 1024;
export const MAX_TEXT = 65536;
export const MAX_FILE = 16777216;
export const MAX_WRITTEN = 1 << 20; // of a table file, for names of up to 500 bytes
export const MIN_PRICE = -2147483648;
export const MAX_PRICE = 2147483647;
export const REFUSED = 0;
export const PASSED = 1;
export const LIGHTER = 2;
export const NEVER = 2;
export const DROPPED = 1;
export const ADDED = 2;
export const MARK_COUNT = 9;
export const NOT_JOINED = 10;
export const TOO_MANY_ROWS = 2;
export const BAD_TEXT = 12;
export const MIXED_NAMES = 25;
export const TOO_MANY_NAMES = 26;
const MAX_LIST = 6370;
const USE_BYTES = 128;

/** Rooms in the module's memory, one after the other.
 * @param {number} from @param {number} end */
function coreRooms(from, end) {
  let at = from;
  /** @param {number} bytes */
  return (bytes) => {
    const room = at;
    at = (at + bytes + 15) & ~15;
    if (at > end) throw Error("the core's memory is too small");
    return room;
  };
}

export class Core {
  /** @param {any} doors the module's exports */
  constructor(doors) {
    this.doors = doors;
    const buffer = doors.memory.buffer;
    this.memory = new Uint8Array(buffer);
    this.view = new DataView(buffer);
    const room = coreRooms(doors.__heap_base.value, buffer.byteLength);
    this.use = room(USE_BYTES);
    this.left = room(MAX_ROWS);
    this.right = room(MAX_ROWS);
    this.weight = room(4 * MAX_ROWS);
    this.prices = new Int32Array(buffer, this.weight, MAX_ROWS);
    this.mark = room(MAX_ROWS);
    this.second = room(MAX_ROWS);
    this.answer = room(24);
    this.matrix = room(USE_BYTES * MAX_JUNCTIONS);
    this.records = room(12 * 2 * MAX_ROWS);
    this.numbers = room(4 * MAX_ROWS);
    this.groupsAt = room(MAX_JUNCTIONS);
    this.rings = room(MAX_ROWS);
    this.list = room(MAX_LIST);
    this.at = room(16 * (MAX_JUNCTIONS + 1));
    this.bend = room(8 * MAX_ROWS);
    this.nameFrom = room(4 * MAX_JUNCTIONS);
    this.nameTo = room(4 * MAX_JUNCTIONS);
    this.written = room(MAX_WRITTEN);
    this.text = room(MAX_FILE + 1);
  }

  /** The words that the library has for a refusal.
   * @param {number} number */
  refusal(number) {
    return this.words(this.doors.star_refusal_text(number));
  }

  /** A refusal by its number, with its place.
   * @param {number} number @param {number} place */
  refused(number, place) {
    const at = place > 0 ? ` (place ${place})` : '';
    return `Refused (${number}): ${this.refusal(number)}${at}.`;
  }

  version() {
    return this.words(this.doors.star_version());
  }

  /** A text that ends with a zero byte.
   * @param {number} at */
  words(at) {
    const end = this.memory.indexOf(0, at >>> 0);
    return new TextDecoder().decode(this.memory.subarray(at >>> 0, end));
  }

  /** Puts a plan's columns into the module's memory.
   * @param {Plan} p */
  put(p) {
    const { memory, use } = this;
    memory.set(p.left, this.left);
    memory.set(p.right, this.right);
    memory.set(p.mark, this.mark);
    this.prices.set(p.price);
    memory.fill(0, use, use + USE_BYTES);
    for (let i = 0; i < p.m; i++) if (p.struck[i] === 0) memory[use + (i >> 3)] |= 1 << (i & 7);
  }

  /** The plan of the columns that a door left in the module's memory.
   * @param {number} n @param {number} m @param {string[]} names @returns {Plan} */
  plan(n, m, names) {
    const { memory, use, left, right, mark } = this;
    /** @param {number} i */
    const inUse = (i) => (memory[use + (i >> 3)] >> (i & 7)) & 1;
    return {
      n,
      m,
      left: memory.slice(left, left + m),
      right: memory.slice(right, right + m),
      price: this.prices.slice(0, m),
      mark: memory.slice(mark, mark + m),
      struck: Uint8Array.from({ length: m }, (_, i) => 1 - inUse(i)),
      names,
    };
  }

  /** The table as doors over working tables take it, without marks. */
  table() {
    const rows = BigInt(MAX_ROWS);
    return [this.use, 16n, this.left, rows, this.right, rows, this.weight, 4n * rows];
  }

  marks() {
    return [this.mark, BigInt(MAX_ROWS)];
  }

  /** Asks a door and reads its answer.
   * @param {string} door @param {(number|bigint)[]} given
   * @returns {Answer} */
  ask(door, ...given) {
    const bytes = door === 'star_work_best' ? 24n : 16n;
    const taken = this.doors[door](...given, this.answer, bytes);
    const { memory, view, answer } = this;
    if (taken === 0 && memory[answer] !== REFUSED) throw Error(`${door} took nothing`);
    return {
      result: taken >>> 0,
      kind: memory[answer],
      number: memory[answer + 1],
      out: view.getUint16(answer + 2, true),
      in: view.getUint16(answer + 4, true),
      only: memory[answer + 6] === 1,
      amount: Number(view.getBigInt64(answer + 8, true)),
    };
  }

  /** @param {Plan} p the marks that a door left in the module's memory, struck rows as they were */
  newMarks(p) {
    const mark = p.mark.slice();
    for (let i = 0; i < p.m; i++) if (!p.struck[i]) mark[i] = this.memory[this.mark + i];
    return mark;
  }

  /** Judges the marks.
   * @param {Plan} p */
  cst(p) {
    this.put(p);
    return this.ask('star_work_cst', p.n, ...this.table(), ...this.marks());
  }

  /** Whether a table may have this many junctions.
   * @param {number} n */
  taken(n) {
    this.memory.fill(0, this.use, this.use + USE_BYTES);
    return this.ask('star_work_mst1', n, ...this.table(), ...this.marks()).number !== 1;
  }

  /** @param {Plan} p */
  other(p) {
    this.put(p);
    return this.ask('star_work_other', p.n, ...this.table(), ...this.marks());
  }

  /** Of a network the exchange of two rows that saves most, as out, in and amount, and the least
   * total; its own total as amount where none saves.
   * @param {Plan} p */
  best(p) {
    this.put(p);
    const answer = this.ask('star_work_best', p.n, ...this.table(), ...this.marks());
    return { ...answer, least: Number(this.view.getBigInt64(this.answer + 16, true)) };
  }

  /** A least network, as marks.
   * @param {Plan} p */
  mst1(p) {
    this.put(p);
    const answer = this.ask('star_work_mst1', p.n, ...this.table(), ...this.marks());
    return { ...answer, mark: this.newMarks(p) };
  }

  /** The total of marks, a network or not.
   * @param {Plan} p @param {Uint8Array} mark */
  total(p, mark) {
    this.put(p);
    this.memory.set(mark.subarray(0, MAX_ROWS), this.mark);
    return this.ask('star_work_total', p.n, ...this.table(), ...this.marks());
  }

  /** The rows between junction 1 and each other one: 32 words of 32 bits for each junction; null
   * where the marks are no network.
   * @param {Plan} p */
  paths(p) {
    this.put(p);
    const matrix = [this.matrix, BigInt(16 * MAX_JUNCTIONS)];
    const answer = this.ask(
      'star_work_paths', p.n, ...this.table(), ...this.marks(), 1, ...matrix);
    if (answer.kind !== PASSED) return null;
    const end = this.matrix + USE_BYTES * p.n;
    return new Uint32Array(this.memory.slice(this.matrix, end).buffer);
  }

  /** The smallest junction of each one's group, and whether each row is marked and on a ring, of
   * any marks; the number of groups, and of such rows.
   * @param {Plan} p */
  groups(p) {
    this.put(p);
    const lent = [this.groupsAt, BigInt(p.n), this.rings, BigInt(MAX_ROWS)];
    const answer = this.ask('star_work_groups', p.n, ...this.table(), ...this.marks(), ...lent);
    const group = this.memory.slice(this.groupsAt, this.groupsAt + p.n);
    const ringed = this.memory.slice(this.rings, this.rings + p.m);
    return { kind: answer.kind, groups: answer.amount, ringed: answer.in, group, rings: ringed };
  }

  /** Beside each row the one that it is best exchanged with, -1 for none, of marks that are a
   * network: beside a row that is left out the dearest of its detour, beside one of the plan the
   * cheapest that could take its place. null where they are none.
   * @param {Plan} p */
  detours(p) {
    this.put(p);
    const numbers = [this.numbers, BigInt(MAX_ROWS)];
    const answer = this.ask(
      'star_work_detours', p.n, ...this.table(), ...this.marks(), ...numbers);
    if (answer.kind !== PASSED) return null;
    const beside = Int32Array.from(this.numbersAt(this.numbers, p.m), (row) => row - 1);
    return { total: answer.amount, beside };
  }

  /** The price above which a row, counted from 1, is in no least network.
   * @param {Plan} p @param {number} row */
  breaking(p, row) {
    this.put(p);
    return this.ask('star_work_breaking', p.n, ...this.table(), row);
  }

  /** The dig list of the marks, if they are a network, as a text.
   * @param {Plan} p */
  digs(p) {
    this.put(p);
    const list = [this.list, BigInt(MAX_LIST)];
    const answer = this.ask(
      'star_work_plan_digs', p.n, ...this.table(), ...this.marks(), ...list);
    const end = this.list + (answer.kind === PASSED ? answer.amount : 0);
    return { ...answer, text: new TextDecoder().decode(this.memory.slice(this.list, end)) };
  }

  /** Turns any marks into a least network, and lists each step.
   * @param {Plan} p */
  mend(p) {
    this.put(p);
    const records = [this.records, BigInt(2 * MAX_ROWS)];
    const answer = this.ask('star_work_mend', p.n, ...this.table(), ...this.marks(), ...records);
    /** @type {Step[]} */
    const steps = [];
    for (let k = 0; answer.kind === PASSED && k < answer.amount; k++) {
      const at = this.records + 12 * k;
      const [kind, out, into] = [0, 4, 8].map((by) => this.view.getUint32(at + by, true));
      steps.push({ kind, out, in: into });
    }
    return { ...answer, mark: this.newMarks(p), steps };
  }

  /** A network that is least among those with exactly t rows at a junction.
   * @param {Plan} p @param {number} junction @param {number} t */
  outlets(p, junction, t) {
    this.put(p);
    const answer = this.ask(
      'star_work_outlets', p.n, ...this.table(), ...this.marks(), junction, t);
    return { ...answer, mark: this.newMarks(p) };
  }

  /** A least network from the least rows of each run, given by its last row, counted from 1.
   * @param {Plan} p @param {number[]} ends */
  districts(p, ends) {
    this.put(p);
    const last = ends.map((end, k) => (k === ends.length - 1 && end === p.m ? MAX_ROWS : end));
    last.forEach((end, k) => this.view.setUint32(this.numbers + 4 * k, end, true));
    const lent = [this.numbers, BigInt(last.length), this.second, BigInt(MAX_ROWS)];
    const answer = this.ask('star_work_districts', p.n, ...this.table(), ...lent, ...this.marks());
    return { ...answer, mark: this.newMarks(p) };
  }

  /** Which of two plans over one table costs less: 1 or 2, 0 where one of them is refused.
   * @param {Plan} p @param {Uint8Array} second */
  which(p, second) {
    this.put(p);
    this.memory.set(second.subarray(0, MAX_ROWS), this.second);
    const lent = [...this.marks(), this.second, BigInt(MAX_ROWS)];
    return this.ask('star_work_which', p.n, ...this.table(), ...lent);
  }

  /** Where a new row goes; its ends are not looked at.
   * @param {Plan} p @param {number} price */
  add(p, price) {
    this.put(p);
    const numbers = [this.numbers, BigInt(MAX_ROWS)];
    return this.ask('star_add', ...this.table(), ...numbers, 0, 0, price);
  }

  /** @param {Plan} p @param {number} row counted from 1 */
  strike(p, row) {
    this.put(p);
    return this.ask('star_strike', this.use, 16n, row);
  }

  /** @param {Plan} p @param {number} row counted from 1 */
  restore(p, row) {
    this.put(p);
    return this.ask('star_restore', this.use, 16n, row);
  }

  /** Puts a text, a character for each byte, into the module's memory; of one that is longer than
   * is read a byte more than that.
   * @param {string} text @param {number} most @returns {number} its length there */
  putText(text, most) {
    const length = Math.min(text.length, most + 1);
    for (let k = 0; k < length; k++) this.memory[this.text + k] = text.charCodeAt(k);
    return length;
  }

  /** Reads the text that was put as a table file: the number of names in `out`, of rows in `in`, of
   * junctions in `amount`.
   * @param {number} length */
  readTable(length) {
    const { nameFrom, nameTo, numbers } = this;
    const names = BigInt(MAX_JUNCTIONS);
    const lent = [nameFrom, names, nameTo, names, numbers, BigInt(MAX_ROWS)];
    const text = [this.text, BigInt(length)];
    return this.ask('star_read_table', ...text, ...this.table(), ...this.marks(), ...lent);
  }

  /** The line of a place in the text that was put.
   * @param {number} length @param {number} place */
  lineOf(length, place) {
    return Number(this.doors.star_line_of(this.text, BigInt(length), place));
  }

  /** Numbers that a door left.
   * @param {number} at @param {number} count */
  numbersAt(at, count) {
    return new Uint32Array(this.memory.slice(at, at + 4 * count).buffer);
  }

  /** Reads the text that was put as an STP text.
   * @param {number} length */
  stp(length) {
    this.memory.fill(255, this.use, this.use + USE_BYTES);
    this.memory.fill(0, this.mark, this.mark + MAX_ROWS);
    const columns = this.table().slice(2);
    const a = this.ask('star_import', this.text, BigInt(length), ...columns);
    return { ...a, plan: a.kind === PASSED ? this.plan(a.out, a.in, []) : null };
  }
}

/** @param {BufferSource} bytes */
export async function coreOpen(bytes) {
  const { instance } = await WebAssembly.instantiate(bytes, {});
  return new Core(instance.exports);
}
