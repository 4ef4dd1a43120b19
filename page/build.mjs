// Joins the page into one HTML file: modules do not load from file://, so that they become one
// script. A name that two modules define, and an import that no module exports, is a fault.
// usage: node build.mjs STAR.wasm OUT.html   'star page' puts a table into it (console/program.c).
import crypto from 'node:crypto';
import fs from 'node:fs';
import path from 'node:path';
import zlib from 'node:zlib';
import { fileURLToPath } from 'node:url';

const MOST_BYTES = 250000;
const here = path.dirname(fileURLToPath(import.meta.url));
const [, , module, out] = process.argv;

/** @param {string} name */
const read = (name) => fs.readFileSync(path.join(here, name), 'utf8');

const IMPORT = /^import \{([^}]*)\} from '\.\/(\w+\.js)';\n/gm;
const DEFINED = /^(?:export )?(?:async )?(?:function\*?|class|const|let) (\[[^\]]*\]|\w+)/gm;
/** @type {Map<string, string>} */
const owner = new Map();
/** @type {string[]} */
const joined = [];

/** The module without comments, imports and the word export, after the modules that it needs.
 * @param {string} name */
function join(name) {
  if (owner.has(name)) return;
  owner.set(name, name);
  const text = read(path.join('src', name));
  for (const [, , other] of text.matchAll(IMPORT)) join(other);
  for (const [, defined] of text.matchAll(DEFINED)) {
    for (const word of defined.match(/\w+/g) || []) define(word, name);
  }
  for (const [, words, other] of text.matchAll(IMPORT)) {
    for (const word of words.match(/\w+/g) || []) {
      if (owner.get(word) !== other) throw Error(`${name}: ${other} has no ${word}`);
    }
  }
  joined.push(strip(text));
}

/** @param {string} word @param {string} name */
function define(word, name) {
  if (owner.has(word)) throw Error(`${word} is defined in ${owner.get(word)} and in ${name}`);
  owner.set(word, name);
}

/** @param {string} text */
function strip(text) {
  return text
    .replace(IMPORT, '')
    .replace(/\/\*\*[\s\S]*?\*\//g, '')
    .replace(/^\s*\/\/.*$/gm, '')
    .replace(/^export /gm, '')
    .replace(/^\s+/gm, '');
}

/** @param {string} text */
const squeeze = (text) => text.replace(/\/\*[\s\S]*?\*\//g, '').replace(/\s*\n\s*/g, '');

/** The version that the module tells. */
function version() {
  /** @type {any} */
  const doors = new WebAssembly.Instance(new WebAssembly.Module(bytesOfCore)).exports;
  const memory = new Uint8Array(doors.memory.buffer);
  const from = doors.star_version();
  return Buffer.from(memory.subarray(from, memory.indexOf(0, from))).toString();
}

join('main.js');
const script = `'use strict';(()=>{\n${joined.join('')}})();`;
if (script.includes('</script')) throw Error('the script would end early');
const hash = crypto.createHash('sha256').update(script).digest('base64');
const policy = [
  "default-src 'none'",
  `script-src 'sha256-${hash}' 'wasm-unsafe-eval'`,
  "style-src 'unsafe-inline'",
  'img-src data:',
  "base-uri 'none'",
  "form-action 'none'",
].join('; ');
const bytesOfCore = fs.readFileSync(module);
const core = zlib.gzipSync(bytesOfCore, { level: 9 }).toString('base64');
const style = squeeze(read('page.css').replaceAll('@DARK@', () => read('dark.css')));
/** @type {Record<string, string>} */
const parts = { POLICY: policy, STYLE: style, CORE: core, SCRIPT: script, VERSION: version() };
const page = read('page.html').replace(/@([A-Z]+)@/g, (_, name) => parts[name]);
const bytes = Buffer.byteLength(page);
if (bytes > MOST_BYTES) throw Error(`${bytes} bytes; at most ${MOST_BYTES} are wanted`);
fs.writeFileSync(out, page);
