// Labels of the picture that lie on a junction or on another label; it runs in the page.

/** The overlaps, how many labels there are, and whether the chosen trench has one. */
export function overlaps() {
  const { picture } = /** @type {any} */ (window).star;
  /** @type {any[]} */
  const texts = [...picture.top.childNodes];
  const apart = texts.filter((t) => !/^number(?! apart)/.test(t.getAttribute('class')));
  const boxes = apart.map((t) => t.getBBox());
  const words = apart.map((t) => t.textContent);
  const { radius, view, at } = picture;
  const bad = [];
  const slack = 1.5;
  for (let i = 0; i < boxes.length; i++) {
    const a = boxes[i];
    for (let j = i + 1; j < boxes.length; j++) {
      const c = boxes[j];
      if (a.x + slack < c.x + c.width && c.x + slack < a.x + a.width &&
          a.y + 3 * slack < c.y + c.height && c.y + 3 * slack < a.y + a.height) {
        bad.push(`${words[i]} on ${words[j]}`);
      }
    }
    for (let v = 0; v < at.x.length; v++) {
      const q = view.pixels({ x: at.x[v], y: at.y[v] });
      const dx = Math.max(a.x - q.x, 0, q.x - a.x - a.width);
      const dy = Math.max(a.y + 2 - q.y, 0, q.y - a.y - a.height + 2);
      if (Math.hypot(dx, dy) < radius - slack) bad.push(`${words[i]} on junction ${v + 1}`);
    }
  }
  const chosen = `${/** @type {any} */ (window).star.app.selected + 1}: `;
  return { bad, shown: texts.length, tag: words.some((w) => w.startsWith(chosen)) };
}
