// Makes the pictures of the page that docs/GUIDE.md shows.
// usage: node pictures.mjs CHROMIUM STAR.html FOLDER
import fs from 'node:fs';
import path from 'node:path';
import { fileURLToPath } from 'node:url';
import { browserMake } from './browser.mjs';

const [, , program, html, folder] = process.argv;
const examples = path.join(path.dirname(fileURLToPath(import.meta.url)), '../../console/examples');

/** Opens a file of the console's examples.
 * @param {any} b @param {string} name */
async function open(b, name) {
  const bytes = JSON.stringify([...fs.readFileSync(path.join(examples, name))]);
  await b.value(`star.open(Uint8Array.from(${bytes}), ${JSON.stringify(name)})`);
  await b.frame();
}

async function run() {
  const b = await browserMake(program).start();
  await b.size(1100, 700);
  await b.go(path.resolve(html));
  await open(b, 'yard-dear.txt');
  await b.value('star.app.select(3)');
  await b.picture(path.join(folder, 'yard.png'));
  await b.size(390, 844, true);
  await open(b, 'market.csv');
  await b.value('star.app.select(0); star.look()');
  await b.picture(path.join(folder, 'market.png'));
  await b.close();
}

run();
