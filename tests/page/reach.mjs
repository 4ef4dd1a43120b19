// How the page is reached: by keys, by a finger, by names for those who do not see it, and with
// enough contrast.
import { contrastBelow } from './contrast.mjs';

/** @param {import('./page.mjs').Tools} tools @returns {Record<string, () => Promise<void>>} */
export function reachGroups({ b, check, choose, example, middle, shows, textOf }) {
  return {
    async keys() {
      await choose(example('yard-dear.txt'));
      await b.value("document.querySelector('#list-rows input').focus()");
      for (const key of ['ArrowDown', 'ArrowDown', 'ArrowDown', ' ']) await b.key(key);
      await b.frame();
      check('space marks', await b.value('star.app.plan.mark[3] === 1'));
      check('the line is chosen', await b.value('star.app.selected === 3'));
      await b.key('z', 2);
      await b.frame();
      check('undo by key', await b.value('star.app.plan.mark[3] === 0'));
      check('undo is shown', (await textOf('head')).includes('1 can be saved') && (await shows()));
      await b.key('y', 2);
      await b.frame();
      check('redo by key', await b.value('star.app.plan.mark[3] === 1'));
      await b.key('Escape');
      await b.frame();
      check('escape closes the card', await b.value("document.getElementById('card').hidden"));
    },

    async phone() {
      await b.size(390, 844, true);
      await choose(example('city.txt'));
      const width = 'document.documentElement.scrollWidth';
      check('no sideways scrolling', (await b.value(width)) <= 390);
      await choose(example('yard.txt'));
      const one = await middle(1);
      await b.tap(one.x, one.y);
      await b.frame();
      const looked = 'star.app.plan.mark[0] === 0 && star.app.selected === 0';
      check('a first tap looks', await b.value(looked));
      const again = await middle(1);
      await b.tap(again.x, again.y);
      await b.frame();
      check('a second tap marks', await b.value('star.app.plan.mark[0] === 1'));
      check('still no scrolling', (await b.value(width)) <= 390);
      await b.size(1280, 800);
    },

    async access() {
      await choose(example('city.txt'));
      await b.value('star.app.select(0)');
      await b.frame();
      const { nodes } = await b.send('Accessibility.getFullAXTree');
      const seen = nodes.filter((/** @type {any} */ node) => !node.ignored);
      const roles = ['button', 'checkbox', 'combobox', 'textbox', 'spinbutton', 'slider', 'image'];
      const bare = seen.filter((/** @type {any} */ node) =>
        roles.includes(node.role.value) && !(node.name && node.name.value));
      check('every control has a name', bare.length === 0);
      /** @param {string} role */
      const number = (role) => seen.filter((/** @type {any} */ n) => n.role.value === role).length;
      check('every row is there', number('checkbox') === 1024 && number('row') >= 1025);
      check('headings of columns', number('columnheader') === 5);
      const live = "document.getElementById('live').textContent.length > 20";
      check('a live region', await b.value(live));
    },

    async contrast() {
      for (const theme of ['light', 'dark']) {
        await b.value(`document.documentElement.dataset.theme = '${theme}'`);
        const low = await b.value(`(${contrastBelow})()`);
        check(`contrast of ${theme}: ${low.join(', ')}`, low.length === 0);
      }
      await b.value("delete document.documentElement.dataset.theme");
    },
  };
}
