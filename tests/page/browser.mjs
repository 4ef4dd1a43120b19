// A driver of headless Chromium over --remote-debugging-pipe: no WebSocket, no package.
import { spawn } from 'node:child_process';
import fs from 'node:fs';
import os from 'node:os';
import path from 'node:path';

const FLAGS = [
  '--headless=new', '--no-sandbox', '--disable-gpu', '--hide-scrollbars', '--no-first-run',
  '--disable-extensions', '--disable-background-networking', '--remote-debugging-pipe',
];
/** Keys: code, number and text.
 * @type {Record<string, [string, number, string?]>} */
const KEYS = {
  ' ': ['Space', 32, ' '], Tab: ['Tab', 9], Enter: ['Enter', 13, '\r'], Escape: ['Escape', 27],
  ArrowDown: ['ArrowDown', 40], ArrowUp: ['ArrowUp', 38], End: ['End', 35], Home: ['Home', 36],
  z: ['KeyZ', 90, 'z'], y: ['KeyY', 89, 'y'], '+': ['Equal', 187, '+'], '-': ['Minus', 189, '-'],
  0: ['Digit0', 48, '0'], ArrowLeft: ['ArrowLeft', 37],
};

/** @param {number} ms */
const sleep = (ms) => new Promise((done) => setTimeout(done, ms));

/** One browser with one page. What it says, asks for and gets wrong is kept in `log`. */
export class Browser {
  /** @param {string} program */
  constructor(program) {
    this.folder = fs.mkdtempSync(path.join(os.tmpdir(), 'star-page-'));
    this.process = spawn(program, [...FLAGS, `--user-data-dir=${this.folder}`, 'about:blank'], {
      stdio: ['ignore', 'ignore', 'ignore', 'pipe', 'pipe'],
    });
    this.last = 0;
    /** @type {Map<number, {done: (r: any) => void, fault: (e: Error) => void}>} */
    this.waiting = new Map();
    /** @type {string[]} */
    this.log = [];
    /** @type {Map<string, () => void>} */
    this.hopes = new Map();
    this.asked = ''; // the last question that the browser asked, as before a page is left
    let rest = '';
    /** @type {any} */ (this.process.stdio[4]).on('data', (/** @type {Buffer} */ data) => {
      const parts = (rest + data).split('\0');
      rest = parts.pop() || '';
      for (const part of parts) this.heard(JSON.parse(part));
    });
  }

  /** @param {any} message */
  heard(message) {
    const wait = this.waiting.get(message.id);
    if (wait) {
      this.waiting.delete(message.id);
      if (message.error) wait.fault(Error(JSON.stringify(message.error)));
      else wait.done(message.result);
      return;
    }
    const { method, params } = message;
    if (method === 'Runtime.exceptionThrown') {
      const { exception, text } = params.exceptionDetails;
      this.log.push(`exception ${(exception && exception.description) || text}`);
    }
    if (method === 'Runtime.consoleAPICalled') this.log.push('console');
    if (method === 'Log.entryAdded') this.log.push(`log ${params.entry.text}`);
    if (method === 'Network.requestWillBeSent' && !params.request.url.startsWith('blob:')) {
      this.log.push(`request ${params.request.url.slice(0, 80)}`);
    }
    if (method === 'Page.javascriptDialogOpening') {
      this.asked = params.type;
      this.send('Page.handleJavaScriptDialog', { accept: true });
    }
    const hope = this.hopes.get(method);
    if (hope) hope();
  }

  /** @param {string} method @param {any} [params] @param {string} [sessionId] @returns {any} */
  raw(method, params = {}, sessionId = undefined) {
    return new Promise((done, fault) => {
      this.last++;
      this.waiting.set(this.last, { done, fault });
      const message = JSON.stringify({ id: this.last, method, params, sessionId });
      /** @type {any} */ (this.process.stdio[3]).write(`${message}\0`);
    });
  }

  async start() {
    const { targetInfos } = await this.raw('Target.getTargets');
    const target = targetInfos.find((/** @type {any} */ t) => t.type === 'page');
    const attach = { targetId: target.targetId, flatten: true };
    this.session = (await this.raw('Target.attachToTarget', attach)).sessionId;
    for (const part of ['Runtime', 'Page', 'Log', 'Network']) await this.send(`${part}.enable`);
    return this;
  }

  /** @param {string} method @param {any} [params] */
  send(method, params) {
    return this.raw(method, params, this.session);
  }

  /** The value of an expression in the page.
   * @param {string} expression */
  async value(expression) {
    const asked = { expression, awaitPromise: true, returnByValue: true };
    const { result, exceptionDetails: fault } = await this.send('Runtime.evaluate', asked);
    if (fault) throw Error((fault.exception && fault.exception.description) || fault.text);
    return result.value;
  }

  /** @param {number} width @param {number} height @param {boolean} [finger] */
  async size(width, height, finger = false) {
    const metrics = { width, height, deviceScaleFactor: 1, mobile: finger };
    await this.send('Emulation.setDeviceMetricsOverride', metrics);
    await this.send('Emulation.setTouchEmulationEnabled', { enabled: finger });
  }

  /** Opens a file and waits until the page has started.
   * @param {string} file */
  async go(file) {
    const loaded = new Promise((done) => this.hopes.set('Page.loadEventFired', () => done(0)));
    await this.send('Page.navigate', { url: `file://${file}` });
    await loaded;
    for (let k = 0; k < 200; k++) {
      if (await this.value('Boolean(window.star)')) break;
      await sleep(25);
    }
    this.log = this.log.filter((line) => !line.startsWith(`request file://${file}`));
  }

  frame() {
    return this.value(
      'new Promise((done) => requestAnimationFrame(() => requestAnimationFrame(() => done(0))))',
    );
  }

  /** @param {string} file @param {boolean} [whole] */
  async picture(file, whole = false) {
    await this.frame();
    const asked = { format: 'png', captureBeyondViewport: whole };
    const { data } = await this.send('Page.captureScreenshot', asked);
    fs.writeFileSync(file, Buffer.from(data, 'base64'));
  }

  /** @param {string} type @param {number} x @param {number} y */
  mouse(type, x, y) {
    const pressed = type !== 'mouseMoved';
    const button = pressed ? 'left' : 'none';
    const clickCount = pressed ? 1 : 0;
    return this.send('Input.dispatchMouseEvent', { type, x, y, button, clickCount });
  }

  /** @param {number} x @param {number} y */
  async click(x, y) {
    await this.mouse('mouseMoved', x, y);
    await this.mouse('mousePressed', x, y);
    await this.mouse('mouseReleased', x, y);
  }

  /** @param {number} x @param {number} y */
  async tap(x, y) {
    await this.send('Input.dispatchTouchEvent', { type: 'touchStart', touchPoints: [{ x, y }] });
    await this.send('Input.dispatchTouchEvent', { type: 'touchEnd', touchPoints: [] });
  }

  /** @param {string} key @param {number} [modifiers] 2 for the control key */
  async key(key, modifiers = 0) {
    const [code, windowsVirtualKeyCode, text] = KEYS[key];
    const pressed = { key, code, windowsVirtualKeyCode, modifiers };
    const typed = modifiers ? {} : { text };
    await this.send('Input.dispatchKeyEvent', { type: 'keyDown', ...pressed, ...typed });
    await this.send('Input.dispatchKeyEvent', { type: 'keyUp', ...pressed });
  }

  async close() {
    const gone = new Promise((done) => this.process.on('exit', done));
    await this.raw('Browser.close').catch(() => 0);
    await gone;
    fs.rmSync(this.folder, { recursive: true, force: true });
  }
}

/** @param {string} program */
export const browserMake = (program) => new Browser(program);
