// CSV, GeoJSON and names of junctions, chosen and dropped in the browser; the deepest and longest
// texts. What they are read as: readings.mjs, formats.mjs.
import fs from 'node:fs';
import path from 'node:path';
import { overlaps } from './overlaps.mjs';

/** @param {import('./page.mjs').Tools} tools @returns {Record<string, () => Promise<void>>} */
export function kindsGroups({ b, check, choose, example, folder, press, saved, textOf }) {
  /** The names that the picture shows, in order. */
  const names = () => b.value(`[...star.picture.top.childNodes].filter((t) =>
    t.getAttribute('class') === 'name').map((t) => t.textContent).sort().join()`);

  /** Looks for a junction.
   * @param {string} word */
  async function find(word) {
    await b.value(`(() => { const box = document.getElementById('find');
      box.value = '${word}'; box.dispatchEvent(new Event('input')); })()`);
    await b.frame();
  }

  /** Adds a trench by the dialog, and gives what is wrong with it.
   * @param {string} from @param {string} to @param {number} price @returns {Promise<string>} */
  async function add(from, to, price) {
    await press('add');
    await b.value(`for (const [id, v] of ${JSON.stringify([['add-a', from], ['add-b', to],
      ['add-price', price]])}) document.getElementById(id).value = v;
      document.querySelector('#add button.go').click()`);
    await b.frame();
    const wrong = await b.value("document.getElementById('add-wrong').textContent");
    await b.value("document.getElementById('add').close()");
    return wrong;
  }

  return {
    async formats() {
      const csv = path.join(folder, 'street.csv');
      fs.mkdirSync(folder, { recursive: true });
      const sheet = ['left;right;price;marked', 'Mill;L\u00e4nge 3;7;x',
        '"L\u00e4nge 3";Quay;5;', ''].join('\r\n');
      fs.writeFileSync(csv, sheet);
      await choose(csv);
      check('a CSV file', (await b.value('[...star.app.plan.price].join()')) === '7,5');
      check('its name', (await textOf('name')) === 'street.csv');
      const groups = '1, 2 (Mill, L\u00e4nge 3); 3 (Quay).';
      check('names of groups', (await textOf('verdict')).includes(groups));
      check('names in the picture', (await names()) === 'L\u00e4nge 3,Mill,Quay');
      await b.value('star.app.select(0)');
      await b.frame();
      check('names of junctions', (await textOf('card')).includes('Mill \u2013 L\u00e4nge 3'));
      const text = Buffer.from(await saved(), 'latin1').toString();
      check('names are saved', text === sheet);
      await b.value(`(() => {
        const line = (from, to, price) => ({ type: 'Feature', properties: { price },
          geometry: { type: 'LineString', coordinates: [from, [0, 9], to] } });
        const text = JSON.stringify({ type: 'FeatureCollection',
          features: [line([0, 0], [4, 0], 3), line([4, 0], [4, 2], 8)] });
        const dropped = new DataTransfer();
        dropped.items.add(new File([text], 'map.geojson'));
        document.dispatchEvent(new DragEvent('drop', { dataTransfer: dropped }));
      })()`);
      for (let k = 0; k < 50 && (await textOf('name')) !== 'map.geojson'; k++) await b.frame();
      const at = await b.value('[star.picture.at.x, star.picture.at.y].map((c) => [...c])');
      check('GeoJSON that is dropped', (await b.value('star.app.plan.m')) === 2);
      check('lies as on the map', at[0][0] < at[0][1] && at[0][1] === at[0][2] &&
        at[1][0] === at[1][1] && at[1][2] < at[1][1]);
      const bad = path.join(folder, 'bad.csv');
      fs.writeFileSync(bad, 'left,right,price\n1,2,3.5\n');
      await choose(bad);
      check('a wrong CSV file', (await textOf('fault')).startsWith(
        'bad.csv:2: a price is not a whole number from -2147483648 to 2147483647: '));
      check('the plan stays', (await textOf('name')) === 'map.geojson');
      await choose(example('yard.txt'));
    },

    async names() {
      const file = path.join(folder, 'named.txt');
      const long = 'The corner of Mill Lane and the quay';
      fs.mkdirSync(folder, { recursive: true });
      fs.writeFileSync(file, ['Mill;Two;9;1', `Two;${long};5;1`, `Mill;${long};4;0`,
        `${long};\u6c34\u8eca;7;1`, ''].join('\n'));
      await choose(file);
      const said = await textOf('verdict');
      const dash = ' \u2013 ';
      check('names of an exchange', said.includes(`Take out trench 1 (Mill${dash}Two, 9), ` +
        `put in trench 3 (Mill${dash}${long}, 4)`));
      const cut = 'The corner of Mill Lane\u2026';
      check('long names', (await names()) === `Mill,${cut},Two,\u6c34\u8eca`);
      check('names in the list', (await textOf('list-rows')).includes(`Mill${dash}Two`));
      await press('digs');
      check('names in the dig list', (await textOf('digs-rows')).includes('\u6c34\u8eca'));
      await b.value("document.getElementById('digs').close()");
      await find('mil');
      check('a junction by its name', (await b.value('star.found')) === 1);
      await find('');
      check('a number among names is refused',
        (await add('Mill', '9', 3)).includes('a number among names'));
      check('a name that is none is refused',
        (await add('Mill', 'a;b', 3)).includes('a line is not a trench'));
      check('a new name', (await add('Mill', 'Quay', 3)) === '' &&
        Buffer.from(await saved(), 'latin1').toString().endsWith('\nMill;Quay;3;0\n'));
      await press('undo');
      const { bad } = await b.value(`(${overlaps})()`);
      check(`names apart: ${bad.slice(0, 3).join(', ')}`, bad.length === 0);
      await choose(example('yard.txt'));
      check('no names', (await names()) === '' && !(await textOf('verdict')).includes(' is Mill'));
    },

    async deepest() {
      const rows = Array.from({ length: 1024 }, (_, k) => {
        const [a, b] = [k % 255, (k + 1 + Math.floor(k / 255)) % 255];
        const names = [a, b].map((v) => `name ${v} `.padEnd(28, 'x'));
        return `${names.join(';')};${k};${Number(k < 254)}`;
      });
      /** @type {Record<string, [string, string]>} */
      const texts = {
        'names.csv': [`${rows.join('\n')}\n`, '1024 255'],
        'long.txt': [`${'n'.repeat(65000)};b;5;1`, '1 2'],
        'blanks.txt': [`1 2 5 1\n${' '.repeat(65000)}\n`, '1 2'],
        'comment.txt': [`1 2 5 1 #${'x'.repeat(1000000)}\n`, '1 2'],
        'lines.txt': [`1 2 5 1\n${'\n'.repeat(200000)}`, '1 2'],
      };
      fs.mkdirSync(folder, { recursive: true });
      for (const [name, [text, table]] of Object.entries(texts)) {
        fs.writeFileSync(path.join(folder, name), text);
        await choose(path.join(folder, name));
        const held = await b.value('`${star.app.plan.m} ${star.app.plan.n}`');
        check(`the text ${name}`, held === table && (await textOf('name')) === name);
      }
      const all = path.join(folder, 'wrong.txt');
      fs.writeFileSync(all, '1 2 x\n'.repeat(10900));
      await choose(all);
      const told = (await textOf('fault')).split('\n');
      check('a text of wrong lines', told.length === 21 && told[19].startsWith('wrong.txt:20: '));
      await choose(example('yard.txt'));
    },
  };
}
