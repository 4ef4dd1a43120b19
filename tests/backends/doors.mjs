// The WebAssembly module held to the native library on the calls that backends.c wrote.
// usage: node doors.mjs STAR.wasm CALLS [control]   Ends in one line 'N passed, M failed'.
import fs from 'node:fs';
import { callsCompare, callsReader } from '../page/calls.js';

const [, , module, path, control] = process.argv;
const bytes = new Uint8Array(fs.readFileSync(path));
const names = callsReader(bytes).doors.map(([name]) => name);
let passed = 0;
let failed = 0;

/** @param {string} what @param {boolean} holds */
function check(what, holds) {
  if (holds) passed++;
  else failed++;
  if (!holds) console.log('doors:', what, 'failed');
}

/** The door with a bit of its answer changed in every 50th call; counts these.
 * @param {any} doors @param {string} name @param {Record<string, number>} changed */
function damaged(doors, name, changed) {
  let turn = 0;
  changed[name] = 0;
  return (/** @type {any[]} */ ...given) => {
    const result = doors[name](...given);
    if (++turn % 50 !== 0) return result;
    new Uint8Array(doors.memory.buffer)[given[given.length - 2]] ^= 1;
    changed[name]++;
    return result;
  };
}

/** Each call with a changed answer is found, and no other.
 * @param {any} doors */
function damagedFound(doors) {
  /** @type {Record<string, number>} */
  const changed = {};
  const wrong = Object.fromEntries(names.map((name) => [name, damaged(doors, name, changed)]));
  const found = callsCompare({ ...doors, ...wrong }, bytes).different;
  for (const name of names) {
    check(`the control for ${name}`, changed[name] > 0 && found[name] === changed[name]);
  }
}

/** @param {any} doors the module's exports */
function run(doors) {
  const { calls, different } = callsCompare(doors, bytes);
  for (const name of names) check(`${name}, ${different[name]} calls differ`, !different[name]);
  console.log(`${calls} calls in WebAssembly as in the native library`);
  if (control) damagedFound(doors);
  console.log(`${passed} passed, ${failed} failed`);
  process.exit(failed ? 1 : 0);
}

WebAssembly.instantiate(fs.readFileSync(module), {}).then(({ instance }) => run(instance.exports));
