// Lines of a table file and their fields, as console/fields.c parts them: for the bytes that a
// change writes. What a file says is read by the core alone, before a change and after it.

/** A part of a line: its first place, and the one after its last.
 * @typedef {[number, number]} Span */
/** The line without its comment and the blanks around it; its fields without the blanks around
 * them, and without quotes too; what parts them.
 * @typedef {{content: Span, whole: Span[], bare: Span[], by: string}} Fields */

/** @param {string} line @param {Span} span @returns {Span} */
function fieldsTrimmed(line, [from, to]) {
  let [start, end] = [from, to];
  while (start < end && ' \t'.includes(line[start])) start++;
  while (start < end && ' \t'.includes(line[end - 1])) end--;
  return [start, end];
}

/** @param {string} line @param {Span} span @returns {Span} */
function fieldsUnquoted(line, [from, to]) {
  const quoted = to - from > 1 && line[from] === '"' && line[to - 1] === '"';
  return quoted ? fieldsTrimmed(line, [from + 1, to - 1]) : [from, to];
}

/** @param {string} line @returns {Fields} */
export function fieldsOf(line) {
  const end = line.search(/[#\r\n]/);
  const content = fieldsTrimmed(line, [0, end < 0 ? line.length : end]);
  const own = line.slice(...content);
  const by = [';', '\t', ','].find((part) => own.includes(part)) || ' ';
  /** @type {Fields} */
  const fields = { content, whole: [], bare: [], by };
  let at = content[0];
  for (const piece of own.split(by)) {
    const whole = fieldsTrimmed(line, [at, at + piece.length]);
    const bare = fieldsUnquoted(line, whole);
    at += piece.length + 1;
    if (by === ' ' && bare[0] === bare[1]) continue;
    fields.whole.push(whole);
    fields.bare.push(bare);
  }
  return fields;
}

/** The word of a field, in small letters; nothing where there is no such field.
 * @param {string} line @param {Fields} fields @param {number} k */
export function fieldsWord(line, fields, k) {
  return k < fields.bare.length ? line.slice(...fields.bare[k]).toLowerCase() : '';
}

/** What can part fields with these words in them: the first that is asked for, if it can; nothing
 * where none can.
 * @param {string[]} words @param {string} first */
export function fieldsPart(words, first) {
  /** @type {Record<string, RegExp>} */
  const never = { ';': /[#";]/, '\t': /[#";\t]/, ',': /[#";\t,]/, ' ': /[#";\t, ]/ };
  const found = [first, ';', '\t', ',', ' '].find((by) => !words.some((w) => never[by].test(w)));
  return found === undefined ? '' : found;
}

/** A line of a trench with another mark, price, or word 'struck'.
 * @param {string} line @param {{mark: number, price: number, struck: number}} was
 * @param {{mark: number, price: number, struck: number}} now */
export function fieldsChanged(line, was, now) {
  const { whole, bare, by, content } = fieldsOf(line);
  /** @type {[Span, string][]} */
  const edits = [];
  const [price, mark] = [2 + was.struck, 3 + was.struck];
  if (was.struck && !now.struck) edits.push([[content[0], whole[1][0]], '']);
  if (!was.struck && now.struck) edits.push([[content[0], content[0]], `struck${by}`]);
  if (was.price !== now.price) edits.push([bare[price], String(now.price)]);
  if (was.mark !== now.mark) {
    const after = whole[price][1];
    edits.push(mark < bare.length ? [bare[mark], String(now.mark)]
      : [[after, after], `${by}${now.mark}`]);
  }
  return edits.reduceRight((text, [[from, to], words]) => {
    return text.slice(0, from) + words + text.slice(to);
  }, line);
}
