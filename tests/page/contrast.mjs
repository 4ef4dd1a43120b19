// Colours of words against what is behind them; it runs in the page.

/** The pairs of colours whose contrast is below 4.5. */
export function contrastBelow() {
  const style = getComputedStyle(document.documentElement);
  const pairs = [
    'ink ground', 'soft ground', 'ink sheet', 'soft sheet', 'ok ok-sheet', 'ink ok-sheet',
    'soft ok-sheet', 'less less-sheet', 'ink less-sheet', 'soft less-sheet', 'no no-sheet',
    'ink no-sheet', 'soft no-sheet', 'no ground', 'less ground', 'go-ink go', 'ring no-sheet',
    'less sheet', 'no less-sheet', 'ink far', 'ink on',
  ];
  /** The relative luminance of a colour of three or six digits.
   * @param {string} name */
  const light = (name) => {
    const digits = style.getPropertyValue(`--${name}`).trim().slice(1);
    const whole = digits.length === 3 ? digits.replace(/./g, '$&$&') : digits;
    const [r, g, b] = [0, 2, 4].map((k) => parseInt(whole.slice(k, k + 2), 16) / 255)
      .map((c) => (c <= 0.03928 ? c / 12.92 : ((c + 0.055) / 1.055) ** 2.4));
    return 0.2126 * r + 0.7152 * g + 0.0722 * b + 0.05;
  };
  return pairs.filter((pair) => {
    const [one, two] = pair.split(' ').map(light);
    return !(Math.max(one, two) / Math.min(one, two) >= 4.5);
  });
}
