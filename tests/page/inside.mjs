// The page that 'star page' writes: a table of any bytes stands inside, and is saved as it was.
import fs from 'node:fs';
import path from 'node:path';
import { tablesFor } from './tables.mjs';

const MOST_BYTES = 250000;

/** Table files whose bytes mean something in HTML, or nothing in UTF-8.
 * @param {string} yard @type {(yard: string) => Record<string, string>} */
const insideTables = (yard) => ({
  'a "b" <c> &amp; \'d\'.txt': `${yard}# </script><!-- "'\`&lt; \xe9 \x80\xff\xfe \xc3(\n`,
  'dos.txt': `\xef\xbb\xbf${yard.replace(/\n/g, '\r\n')}# </div></body>`,
  'one\nline.txt': yard.trimEnd(),
  'none.txt': '',
});

/** @param {import('./page.mjs').Tools} tools @returns {Record<string, () => Promise<void>>} */
export function insideGroups({ b, bytesOf, check, choose, example, examples, folder, html, saved,
  star, textOf }) {
  const page = path.join(folder, 'with.html');

  /** Opens what 'star page' writes for a file.
   * @param {string} file */
  async function open(file) {
    star('page', file, '-o', page);
    await b.go(page);
  }

  return {
    async inside() {
      for (const [name, text] of Object.entries(insideTables(bytesOf(example('yard.txt'))))) {
        fs.mkdirSync(folder, { recursive: true });
        const file = path.join(folder, name);
        fs.writeFileSync(file, text, 'latin1');
        await open(file);
        const told = JSON.stringify(name);
        check(`the table inside ${told}`, (await b.value('star.app.text()')) === text);
        check(`the name ${told}`, (await b.value('star.app.name')) === name);
        check(`saved again ${told}`, (await saved()) === text);
      }
      await open(example('street.stp'));
      const table = star('table', example('street.stp'));
      check('an STP text inside', (await saved()) === table);
      fs.mkdirSync(folder, { recursive: true });
      const large = path.join(folder, 'large.txt');
      fs.writeFileSync(large, tablesFor(examples).large);
      await open(large);
      check('the largest table inside', (await textOf('name')) === 'large.txt');
      check('its size', fs.statSync(page).size < MOST_BYTES);
      await b.go(path.resolve(html));
    },

    async refusals() {
      const sign = '\u25c6 ';
      const given = ['old.txt', 'yard.txt'].map((name) => bytesOf(example(name)));
      const own = ['junctions 256\n1 2 5 1\n', '1 2 5 1\n2 3 5 0\n', '1 2 5 0\n2 3 5 0\n'];
      for (const text of [...given, ...own]) {
        fs.mkdirSync(folder, { recursive: true });
        const file = path.join(folder, 'table.txt');
        fs.writeFileSync(file, text);
        const told = /<p class="core">(Refused[^<]*)/.exec(star('page', '--static', file)
          .replace(/<section[^]*/, ''));
        await choose(file);
        const said = await b.value(`[...document.querySelectorAll('#why .core')]
          .map((part) => part.innerText).find((words) => words.includes('Refused'))`);
        check(`the sign of a refusal: ${text.slice(0, 20)}`,
          (told ? sign + told[1] : undefined) === said);
      }
    },
  };
}
