// Calls of the doors that tests/backends/backends.c wrote, made once more in WebAssembly: every
// result, every byte of every lent column and the bytes around it have to be as the native library
// left them. Runs in node and in a browser.

const GUARD = 32;
const FILL = 0xa5;

/** @typedef {{name: string, size?: number, number?: string}} Parameter */

/** Reads the calls one after the other.
 * @param {Uint8Array} bytes */
export function callsReader(bytes) {
  const view = new DataView(bytes.buffer, bytes.byteOffset, bytes.length);
  const end = bytes.indexOf(10);
  /** @type {[string, Parameter[]][]} */
  const doors = JSON.parse(new TextDecoder().decode(bytes.subarray(0, end)));
  let at = end + 1;
  const u32 = () => {
    at += 4;
    return view.getUint32(at - 4, true);
  };
  /** @param {number} length */
  const take = (length) => {
    at += length;
    return bytes.subarray(at - length, at);
  };
  return { doors, u32, take, more: () => at < bytes.length };
}

/** @param {Uint8Array} a @param {Uint8Array} b */
function alike(a, b) {
  for (let k = 0; k < a.length; k++) if (a[k] !== b[k]) return false;
  return a.length === b.length;
}

/** @param {Uint8Array} bytes */
function guarded(bytes) {
  for (let k = 0; k < bytes.length; k++) if (bytes[k] !== FILL) return false;
  return true;
}

/** Lends a call's arguments, with guard bytes around each column.
 * @param {Uint8Array} memory @param {number} free @param {any} calls @param {Parameter[]} all */
function callsLend(memory, free, calls, all) {
  const lent = [];
  const given = [];
  for (const p of all) {
    const value = calls.u32();
    if (p.number) {
      given.push(p.number === 'int32_t' ? value | 0 : value);
      continue;
    }
    const bytes = calls.take(value);
    const from = ((free + 15) & ~15) + GUARD;
    memory.fill(FILL, free, from);
    memory.set(bytes, from);
    lent.push({ free, from, bytes });
    given.push(from, BigInt(Math.floor(value / (p.size || 1))));
    free = from + value;
  }
  memory.fill(FILL, free, free + GUARD);
  return { lent, given, end: free };
}

/** @param {any} doors the module's exports @param {Uint8Array} bytes
 * @returns {{calls: number, different: Record<string, number>}} */
export function callsCompare(doors, bytes) {
  const memory = new Uint8Array(doors.memory.buffer);
  const calls = callsReader(bytes);
  /** @type {Record<string, number>} */
  const different = {};
  let count = 0;
  while (calls.more()) {
    const [name, parameters] = calls.doors[calls.u32()];
    const { lent, given, end } = callsLend(memory, doors.__heap_base.value, calls, parameters);
    const result = doors[name](...given) >>> 0;
    let same = result === calls.u32() && guarded(memory.subarray(end, end + GUARD));
    for (const { free, from, bytes } of lent) {
      const after = calls.take(1)[0] ? calls.take(bytes.length) : bytes;
      same = alike(memory.subarray(from, from + bytes.length), after) && same;
      same = guarded(memory.subarray(free, from)) && same;
    }
    count++;
    if (!same) different[name] = (different[name] || 0) + 1;
  }
  return { calls: count, different };
}
