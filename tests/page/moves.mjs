// What is moved by hand and asked before it is lost: the price along its curve, steps of mending, a
// junction that is looked for, the question before an unsaved plan is left.

/** @param {import('./page.mjs').Tools} tools @returns {Record<string, () => Promise<void>>} */
export function movesGroups({ b, bytesOf, check, choose, example, press, saved, star, textOf }) {
  /** The box of an element, in pixels.
   * @param {string} id */
  const boxOf = (id) => b.value(`(() => {
    const element = document.getElementById('${id}');
    element.scrollIntoView({ block: 'nearest' });
    const { left, top, width, height } = element.getBoundingClientRect();
    return { left, top, width, height };
  })()`);

  /** Drags along an element from one share of its width to others, and looks at each.
   * @param {string} id @param {number[]} shares @param {string} look
   * @returns {Promise<any[]>} */
  async function drag(id, shares, look) {
    const { left, top, width, height } = await boxOf(id);
    /** @param {number} share */
    const at = (share) => [left + share * width, top + height / 2];
    const seen = [];
    await b.mouse('mouseMoved', ...at(shares[0]));
    await b.mouse('mousePressed', ...at(shares[0]));
    for (const share of shares) {
      await b.send('Input.dispatchMouseEvent', {
        type: 'mouseMoved', x: at(share)[0], y: at(share)[1], button: 'left', buttons: 1,
      });
      await b.frame();
      seen.push(await b.value(look));
    }
    await b.mouse('mouseReleased', ...at(shares[shares.length - 1]));
    await b.frame();
    return seen;
  }

  /** The price of trench 5, the least total of the core, and the words beside the curve. */
  const PRICED = `[star.app.plan.price[4], star.app.judgement.least.amount,
    document.getElementById('price-says').innerText]`;

  return {
    async drags() {
      const file = example('yard.txt');
      for (const id of ['price-range', 'price-curve']) {
        await choose(file);
        await b.value('star.app.select(4)');
        await b.frame();
        const before = await b.value('star.app.history.back.length');
        const seen = await drag(id, [0.9, 0.5, 0.2], PRICED);
        check(`${id}: prices fall along it`, seen[0][0] > seen[1][0] && seen[1][0] > seen[2][0]);
        for (const [price, least, words] of seen) {
          const told = star('quote', file, '5', String(price));
          check(`${id}: the least total at ${price}`, words.includes(`least total is ${least}.`) &&
            told.includes(`and ${least} at the new price`));
        }
        const [price] = seen[2];
        check(`${id}: the price in the file`, (await saved()).includes(`1 3 ${price} 0`));
        check(`${id}: one step`, (await b.value('star.app.history.back.length')) === before + 1);
        await press('undo');
        check(`${id}: undone at once`, (await saved()) === bytesOf(file));
      }
    },

    async steps() {
      await choose(example('old.txt'));
      await press('mend');
      const look = `JSON.stringify([star.app.shown.mark.join(''),
        document.getElementById('mend-what').innerText,
        document.getElementById('mend-at').innerText,
        [...document.querySelectorAll('#net .over path, #net .under path')].map((line) =>
          [line.getAttribute('class'), line.getAttribute('d')])])`;
      const count = await b.value('star.app.mending.steps.length');
      const ahead = [await b.value(look)];
      for (let k = 0; k < count; k++) {
        await press('mend-next');
        ahead.push(await b.value(look));
      }
      check('steps differ', count > 1 && new Set(ahead).size === count + 1);
      const last = 'document.getElementById("mend-next").disabled';
      check('no step after the last', await b.value(last));
      for (let k = count - 1; k >= 0; k--) {
        await press('mend-back');
        check(`back at step ${k + 1}`, (await b.value(look)) === ahead[k]);
      }
      const first = 'document.getElementById("mend-back").disabled';
      check('no step before the first', await b.value(first));
      await press('mend-last');
      check('the last step at once', (await b.value(look)) === ahead[count]);
      await press('mend-first');
      check('the first step at once', (await b.value(look)) === ahead[0]);
      await press('mend-leave');
      check('left as it was', (await saved()) === bytesOf(example('old.txt')));
    },

    async finds() {
      await choose(example('city.txt'));
      /** @param {string} word */
      const find = async (word) => {
        await b.value(`(() => { const box = document.getElementById('find');
          box.value = '${word}'; box.dispatchEvent(new Event('input')); })()`);
        await b.frame();
      };
      const spots = () => b.value(`[...document.querySelectorAll('#net .discs .found')]
        .map((disc) => star.picture.discs.indexOf(disc) + 1).join()`);
      for (const v of [200, 7]) {
        await find(String(v));
        const away = await b.value(`(() => {
          const { view, at } = star.picture;
          const q = view.pixels({ x: at.x[${v - 1}], y: at.y[${v - 1}] });
          return Math.hypot(q.x - view.w / 2, q.y - view.h / 2);
        })()`);
        check(`junction ${v} in the middle`, away < 1);
        check(`junction ${v} is set off`, (await spots()) === String(v));
        const number = `[...document.querySelectorAll('#net .top .number')].some((text) =>
          text.textContent === '${v}')`;
        check(`junction ${v} with its number`, await b.value(number));
      }
      for (const word of ['256', '0', '']) {
        await find(word);
        check(`no junction '${word}'`, (await spots()) === '');
      }
      await press('fit');
    },

    async leaves() {
      const asks = `!dispatchEvent(new Event('beforeunload', { cancelable: true }))`;
      await choose(example('yard.txt'));
      check('nothing is asked of a file as it was', !(await b.value(asks)));
      await b.value('star.app.toggle(0)');
      check('an unsaved mark is asked about', await b.value(asks));
      check('and shown beside the name', (await textOf('name')) === 'yard.txt \u2022');
      await saved();
      check('nothing is asked after saving', !(await b.value(asks)));
      await press('undo');
      check('an undone mark is a change too', await b.value(asks));
      await saved();
      await b.value('star.app.select(4)');
      await b.frame();
      await drag('price-range', [0.9, 0.3], '0');
      check('a price that was moved', await b.value(asks));
      await choose(example('yard.txt'));
      check('nothing is asked of another file', !(await b.value(asks)));
    },
  };
}
