// The script of a click at the largest table, as a ratio to that of an empty page in the same run.
import fs from 'node:fs';
import path from 'node:path';
import { tablesFor } from './tables.mjs';

const CLICKS = 20;
const MOST_RATIO = 150; // 40 to 100 were measured

/** @param {import('./page.mjs').Tools} tools @returns {Record<string, () => Promise<void>>} */
export function clicksGroups({ b, check, examples, folder, html, middle }) {
  /** The processor time of the scripts of a click, in ms: the median over some clicks, each with
   * the pointer moved there first and a frame drawn after it.
   * @param {(k: number) => Promise<{x: number, y: number}>} at */
  async function clickTime(at) {
    await b.send('Performance.enable', { timeDomain: 'threadTicks' });
    const spent = async () => {
      const { metrics } = await b.send('Performance.getMetrics');
      return metrics.find((/** @type {any} */ metric) => metric.name === 'ScriptDuration').value;
    };
    const times = [];
    for (let k = 0; k < CLICKS; k++) {
      const { x, y } = await at(k);
      const before = await spent();
      await b.click(x, y);
      await b.frame();
      times.push(1000 * ((await spent()) - before));
    }
    await b.send('Performance.disable');
    return times.sort((x, y) => x - y)[CLICKS >> 1];
  }

  return {
    async clicks() {
      const empty = path.join(folder, 'empty.html');
      fs.mkdirSync(folder, { recursive: true });
      fs.writeFileSync(empty, `<!doctype html><body><script>window.star = 0;
        for (const kind of ['pointermove', 'pointerdown', 'pointerup', 'click'])
          addEventListener(kind, () => { window.star++; });
        window.star = 1</script>`);
      await b.go(empty);
      const none = await clickTime(async () => ({ x: 300, y: 300 }));
      await b.go(path.resolve(html));
      const large = JSON.stringify([...Buffer.from(tablesFor(examples).large)]);
      await b.value(`star.open(Uint8Array.from(${large}), 'large')`);
      await b.frame();
      const full = await clickTime((k) => middle(10 * k + 1));
      const turned = await b.value('star.app.history.back.length');
      check('each click turns a mark', turned >= CLICKS);
      const ratio = full / none;
      console.log(`the script of a click: ${full.toFixed(2)} ms at 1,024 trenches, ` +
        `${none.toFixed(3)} ms on an empty page, ${ratio.toFixed(0)} times as long`);
      check('the script of a click', ratio < MOST_RATIO);
    },
  };
}
