// The page on paper: the picture is not cut, and lists come whole. A PDF is printed by the browser,
// read by pdftotext and drawn by pdftoppm.
import { spawnSync } from 'node:child_process';
import fs from 'node:fs';
import path from 'node:path';
import { tablesFor } from './tables.mjs';

const DOTS = 200; // of an inch on paper, in what is drawn
const DARK = 160; // grey levels below this are ink

/** A grey picture of a page, as pdftoppm writes it.
 * @param {Buffer} bytes */
function grey(bytes) {
  const head = /^P5\s+(\d+)\s+(\d+)\s+255\s/.exec(bytes.toString('latin1', 0, 40));
  if (!head) throw Error('no grey picture');
  const [wide, high] = [Number(head[1]), Number(head[2])];
  return { wide, high, at: bytes.subarray(head[0].length) };
}

/** Whether the programs that read a PDF are installed. */
export const paperReadable = () => {
  return ['pdftotext', 'pdftoppm'].every((program) => !spawnSync(program, ['-v']).error);
};

/** @param {import('./page.mjs').Tools} tools @returns {Record<string, () => Promise<void>>} */
export function paperGroups({ b, check, choose, example, examples, folder, press, star }) {
  const pdf = path.join(folder, 'page.pdf');

  /** @param {string} [pageRanges] */
  async function print(pageRanges = '') {
    fs.mkdirSync(folder, { recursive: true });
    const { data } = await b.send('Page.printToPDF', { printBackground: true, pageRanges });
    fs.writeFileSync(pdf, Buffer.from(data, 'base64'));
  }

  /** The text of each page.
   * @param {string[]} words */
  const text = (...words) => spawnSync('pdftotext', [...words, pdf, '-'], {
    encoding: 'utf8', maxBuffer: 1 << 25,
  }).stdout;

  /** The words of the first page with their boxes, in points. */
  function boxes() {
    const found = text('-bbox', '-l', '1').matchAll(
      /<word xMin="([\d.]+)" yMin="([\d.]+)" xMax="([\d.]+)" yMax="([\d.]+)">([^<]*)</g);
    return [...found].map(([, ...parts]) => {
      return { word: parts[4], box: parts.slice(0, 4).map(Number) };
    });
  }

  /** The first page as a picture. */
  function firstPage() {
    const words = ['-gray', '-r', String(DOTS), '-l', '1', '-singlefile', pdf];
    spawnSync('pdftoppm', [...words, path.join(folder, 'first')]);
    return grey(fs.readFileSync(path.join(folder, 'first.pgm')));
  }

  /** How many dots of a box have ink.
   * @param {ReturnType<typeof grey>} page @param {number[]} box in points */
  function ink(page, box) {
    const [x0, y0, x1, y1] = box.map((points) => Math.round((points * DOTS) / 72));
    let dark = 0;
    for (let y = Math.max(0, y0); y < Math.min(page.high, y1); y++) {
      for (let x = Math.max(0, x0); x < Math.min(page.wide, x1); x++) {
        if (page.at[y * page.wide + x] < DARK) dark++;
      }
    }
    return dark;
  }

  /** The words of the picture on the screen, those on the first page with all else hidden, and how
   * many of these have no ink: what is cut off has a place on the page, and no ink. */
  async function words() {
    /** @type {string} */
    const shown = await b.value(`[...document.querySelectorAll('#net .top text')]
      .map((text) => text.textContent).join(' ')`);
    const others = "document.querySelectorAll('header, #panel, #list')";
    await b.value(`${others}.forEach((part) => part.style.display = 'none')`);
    await print('1');
    await b.value(`${others}.forEach((part) => part.style.display = '')`);
    const [page, all] = [firstPage(), boxes()];
    return {
      shown: new Set(shown.split(/\s+/)),
      placed: new Set(all.map(({ word }) => word)),
      bare: all.filter(({ box }) => ink(page, box) < 4).length,
    };
  }

  return {
    async paper() {
      for (const name of ['yard', 'town']) {
        const bytes = JSON.stringify([...Buffer.from(tablesFor(examples)[name])]);
        await b.value(`star.open(Uint8Array.from(${bytes}), '${name}')`);
        await b.frame();
        const { shown, placed, bare } = await words();
        check(`the picture of the ${name} is not cut`, shown.size > 5 && bare === 0 &&
          [...shown].every((word) => placed.has(word)));
      }
      const pages = [];
      for (const theme of ['light', 'dark']) {
        await b.value(`document.documentElement.dataset.theme = '${theme}'; star.app.select(60)`);
        await b.frame();
        await print('1');
        pages.push(firstPage().at);
      }
      check('light and dark are the same on paper', pages[0].equals(pages[1]));
      await b.value('delete document.documentElement.dataset.theme; star.app.select(-1)');
    },

    async paperLists() {
      await choose(example('city.txt'));
      await print();
      const rows = text('-raw').match(/\d+ \d+–\d+ /g) || [];
      check(`every trench on paper (${rows.length})`, new Set(rows).size === 1024);
      await press('digs');
      await print();
      const listed = text('-raw').replace(/ *\u2610 *$/gm, '').split(/[\n\f]+/)
        .filter((line) => /^(\d+ \d+ \d+ -?\d+|Total -?\d+)$/.test(line));
      const told = star('digs', example('city.txt')).trim();
      check('the dig list on paper', listed.join('\n') === told);
      check('nothing else on it', !/Standing|total/.test(text('-raw')));
      await b.value("document.getElementById('digs').close()");
    },

    async paperWorksheet() {
      await b.value(`window.print = () => {
        window.star.printed = document.body.classList.contains('paper');
      }`);
      await press('class');
      await press('lesson-paper');
      check('a worksheet is printed', await b.value('star.printed'));
      check('and put away', await b.value("!document.body.classList.contains('paper')"));
      await b.value("document.body.classList.add('paper')");
      await print();
      await b.value("document.body.classList.remove('paper')");
      const pages = text('-raw').split('\f').filter((page) => page.trim() !== '');
      const [answers] = pages.slice(-1);
      const asked = pages.slice(0, -1).join('\n');
      check('answers on the last page alone', pages.length > 1 && !asked.includes('\u25c6') &&
        /^Answers to worksheet/.test(answers));
      const { asks, rows } = await b.value(`({
        asks: document.querySelectorAll('#paper .ask').length,
        rows: document.querySelectorAll('#paper tbody tr').length })`);
      const numbers = Array.from({ length: asks }, (_, k) => `${k + 1}.`);
      /** @param {string} page */
      const numbered = (page) => (page.match(/^\d+\.(?= [A-Z2])/gm) || []).join();
      check('every exercise', asks > 3 && numbered(asked) === numbers.join());
      check('every answer', numbered(answers) === numbers.join());
      const lines = asked.match(/^\d+ \d+\u2013\d+ \S+ [\u2610\u2612]$/gm) || [];
      check('every trench of them', lines.length === rows);
      await press('lesson-leave');
    },
  };
}
