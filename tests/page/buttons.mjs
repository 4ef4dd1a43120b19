// Buttons that no other group presses, held to the console; the picture moved by wheel, mouse,
// fingers and keys; the page by the keyboard alone; what the page's policy forbids.
import fs from 'node:fs';
import path from 'node:path';

const OUTLINE = 2; // pixels of an outline that is seen

/** @param {import('./page.mjs').Tools} tools @returns {Record<string, () => Promise<void>>} */
export function buttonsGroups({ b, bytesOf, check, choose, example, folder, press, saved, star,
  textOf }) {
  /** What the console writes of a file after some commands, each with its words.
   * @param {string} file @param {string[][]} commands */
  function changed(file, ...commands) {
    const at = path.join(folder, 'changed.txt');
    let text = bytesOf(file);
    for (const [command, ...words] of commands) {
      fs.mkdirSync(folder, { recursive: true });
      fs.writeFileSync(at, text, 'latin1');
      text = star(command, at, ...words);
    }
    return text;
  }

  /** @param {number} row counted from 1 */
  async function select(row) {
    await b.value(`star.app.select(${row - 1})`);
    await b.frame();
  }

  const view = () => b.value('({ ...star.picture.view })');
  const dark = "getComputedStyle(document.body).backgroundColor";

  return {
    async buttons() {
      const [yard, dear] = [example('yard.txt'), example('yard-dear.txt')];
      await choose(yard);
      await press('other');
      check('other', (await saved()) === changed(yard, ['unmark', '3'], ['mark', '1']) &&
        (await textOf('head')).includes('Cheapest network'));
      await choose(dear);
      await press('build');
      check('build', (await saved()) === star('build', '--table', dear));
      await choose(dear);
      await select(4);
      await press('exchange');
      check('exchange', (await saved()) === changed(dear, ['unmark', '1'], ['mark', '4']));
      await press('undo');
      await press('mark');
      check('mark', (await saved()) === star('mark', dear, '4'));
      await press('mark');
      check('unmark', (await saved()) === bytesOf(dear));
      await press('close');
      check('close', await b.value("document.getElementById('card').hidden"));
      const before = await b.value(dark);
      await press('theme');
      check('theme', before !== (await b.value(dark)));
      await press('theme');
      check('theme again', before === (await b.value(dark)));
      await b.value('window.print = () => { star.prints = (star.prints || 0) + 1; }');
      await press('print');
      await press('class');
      await press('lesson-paper');
      await press('lesson-leave');
      check('print', (await b.value('star.prints')) === 2);
    },

    async chooses() {
      await b.send('Page.setInterceptFileChooserDialog', { enabled: true });
      const asked = new Promise((done) => b.hopes.set('Page.fileChooserOpened', () => done(true)));
      await press('open');
      check('open asks for a file', await asked);
      await b.send('Page.setInterceptFileChooserDialog', { enabled: false });
    },

    async plays() {
      await choose(example('old.txt'));
      await press('mend');
      await press('mend-play');
      for (let k = 0; k < 300 && (await b.value('star.app.mending.at')) === 0; k++) await b.frame();
      await press('mend-play');
      const at = await b.value('star.app.mending.at');
      check('play', at > 0 && (await textOf('mend-play')) === 'Play');
      await b.value(`(() => { const range = document.getElementById('mend-range');
        range.value = 1; range.dispatchEvent(new Event('input')); })()`);
      check('a step by the slider', (await b.value('star.app.mending.at')) === 1);
      await press('mend-leave');
      const all = bytesOf(example('city.txt')).replace(/ 0$/gm, ' 1');
      fs.mkdirSync(folder, { recursive: true });
      fs.writeFileSync(path.join(folder, 'all.txt'), all);
      await choose(path.join(folder, 'all.txt'));
      await press('mend');
      const steps = await b.value('star.app.mending.steps.length');
      await b.value(`(() => { const range = document.getElementById('mend-range');
        range.value = ${steps - 1}; range.dispatchEvent(new Event('input')); })()`);
      await press('mend-next');
      check(`many steps, ${steps}`, steps > 700 && (await textOf('mend-at')).includes('done'));
      await press('mend-keep');
      check('as the console mends', (await saved()) === star('mend', path.join(folder, 'all.txt')));
    },

    async views() {
      await choose(example('city.txt'));
      await press('fit');
      const [x, y] = [300, 300];
      const under = () => b.value(`(() => { const r = star.picture.root.getBoundingClientRect();
        const q = star.picture.view.place(${x} - r.left, ${y} - r.top);
        return [q.x, q.y].map((c) => c.toFixed(6)).join(); })()`);
      const [whole, place] = [await view(), await under()];
      await b.send('Input.dispatchMouseEvent', { type: 'mouseWheel', x, y, deltaX: 0,
        deltaY: -300 });
      await b.frame();
      check('the wheel', (await view()).k > 1.2 * whole.k && (await under()) === place);
      const from = await view();
      await b.mouse('mousePressed', x, y);
      for (const by of [20, 40]) {
        await b.send('Input.dispatchMouseEvent', { type: 'mouseMoved', x: x + by, y: y + by,
          button: 'left', buttons: 1 });
      }
      await b.mouse('mouseReleased', x + 40, y + 40);
      const to = await view();
      check('a drag', Math.abs(to.x - from.x - 40) < 1 && Math.abs(to.y - from.y - 40) < 1);
      check('no mark by dragging', (await b.value('star.app.saved')) === true);
      await b.value("document.getElementById('net').focus()");
      await b.key('+');
      check('the key +', (await view()).k > to.k);
      await b.key('-');
      await b.key('ArrowLeft');
      check('an arrow', (await view()).x - to.x > 30);
      await b.key('0');
      check('the key 0', Math.abs((await view()).k - whole.k) < 1e-9);
      await press('in');
      check('zoom in', (await view()).k > 1.3 * whole.k);
      await press('out');
      check('zoom out', Math.abs((await view()).k - whole.k) < 1e-6);
      await b.size(1280, 800, true);
      /** @param {string} type @param {number} apart */
      const fingers = (type, apart) => b.send('Input.dispatchTouchEvent', { type,
        touchPoints: type === 'touchEnd' ? [] : [{ x: x - apart, y, id: 1 },
          { x: x + apart, y, id: 2 }] });
      const small = await view();
      await fingers('touchStart', 30);
      await fingers('touchMove', 45);
      await fingers('touchMove', 60);
      await fingers('touchEnd', 0);
      check('two fingers', (await view()).k > 1.5 * small.k);
      check('no mark by fingers', (await b.value('star.app.saved')) === true);
      await b.size(1280, 800);
      await press('fit');
    },

    async tabs() {
      const file = example('yard.txt');
      await choose(file);
      await b.value('document.activeElement.blur()');
      const seen = new Set();
      let unseen = '';
      for (let k = 0; k < 40; k++) {
        await b.key('Tab');
        const [what, width] = await b.value(`(() => { const e = document.activeElement;
          const own = getComputedStyle(e);
          const width = own.outlineStyle === 'none' ? 0 : parseFloat(own.outlineWidth);
          const what = e.dataset.act || e.id || (e.type === 'checkbox' ? 'row' : e.tagName);
          return [what, width]; })()`);
        seen.add(what);
        if (width < OUTLINE && what !== 'BODY') unseen += ` ${what}`;
      }
      const wanted = ['open', 'examples', 'save', 'undo', 'add', 'plans', 'digs', 'class', 'print',
        'theme', 'net', 'in', 'out', 'fit', 'find', 'other', 'list-filter', 'list-order', 'list-at',
        'row'].filter((what) => what !== 'undo' && !seen.has(what));
      check(`reached by the tab key; not so: ${wanted}`, wanted.length === 0);
      check(`the focus is seen; not so:${unseen}`, unseen === '');
      await b.value("document.querySelector('[data-act=add]').focus()");
      await b.key('Enter');
      await b.frame();
      for (const words of ['2', '4', '1']) {
        await b.send('Input.insertText', { text: words });
        await b.key('Tab');
      }
      await b.frame();
      await b.key('Enter');
      await b.frame();
      check('a trench by keys alone', (await saved()) === star('add', file, '2', '4', '1'));
    },

    async policy() {
      const policy = await b.value(`document.querySelector(
        'meta[http-equiv="Content-Security-Policy"]').content`);
      check('the policy', policy.startsWith("default-src 'none'; script-src 'sha256-") &&
        !/https?:|unsafe-eval'? |\*/.test(policy.replace("'wasm-unsafe-eval'", '')));
      const said = b.log.length;
      const ran = await b.value(`(async () => {
        const script = document.createElement('script');
        script.textContent = 'star.injected = 1';
        document.body.append(script);
        let got = 0;
        try { await fetch('data:,x'); got = 1; } catch (fault) { got = 0; }
        return [got, star.injected || 0].join();
      })()`);
      check('nothing injected, nothing fetched', ran === '0,0');
      await b.frame();
      b.log.splice(said); // what the browser says of these
    },
  };
}
