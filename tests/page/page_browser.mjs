// A headless Chromium by its debugging protocol over a pipe: pages, mouse, keys, fingers, pictures.
// Node's own library alone.
import {spawn} from 'node:child_process';
import {mkdtempSync, rmSync, writeFileSync} from 'node:fs';
import {tmpdir} from 'node:os';
import {join} from 'node:path';

const BUTTONS = {
  left: 1,
  right: 2,
  middle: 4
};
const MODIFIERS = {
  Alt: 1,
  Control: 2,
  Meta: 4,
  Shift: 8
};
const NAMED = {
  Enter: ['Enter', 13, '\r'],
  Escape: ['Escape', 27],
  Tab: ['Tab', 9],
  Backspace: ['Backspace', 8],
  Delete: ['Delete', 46],
  Home: ['Home', 36],
  End: ['End', 35],
  ArrowLeft: ['ArrowLeft', 37],
  ArrowUp: ['ArrowUp', 38],
  ArrowRight: ['ArrowRight', 39],
  ArrowDown: ['ArrowDown', 40],
  Shift: ['ShiftLeft', 16],
  Control: ['ControlLeft', 17],
  PageUp: ['PageUp', 33],
  PageDown: ['PageDown', 34],
  ' ': ['Space', 32, ' '],
};

export const pause = (ms) => new Promise((go) => setTimeout(go, ms));

/** Who waits longer than this for anything has failed: no machine is so busy. In milliseconds. */
export const MOST_WAIT = 5 * 60 * 1000;

/** Waits until a function gives something true, and gives it. `what` names it in an error. */
export async function waitFor(look, what) {
  const end = Date.now() + MOST_WAIT;
  for (;;) {
    const value = await look();
    if (value) return value;
    if (Date.now() > end) throw new Error(`not within ${MOST_WAIT} ms: ${what}`);
    await pause(15);
  }
}

/** Waits until a function run in a page gives something true, and gives it. */
export const until = (page, what, ...words) => waitFor(() => page.run(what, ...words), what);

/** A browser with a folder of its own. */
export class Browser {
  constructor(words = []) {
    this.folder = mkdtempSync(join(tmpdir(), 'nonobench-browser-'));
    const all = [
      '--headless=new',
      '--no-sandbox',
      '--disable-dev-shm-usage',
      '--disable-gpu',
      '--no-first-run',
      '--remote-debugging-pipe',
      `--user-data-dir=${this.folder}`,
      ...words
    ];
    this.process = spawn(process.env.CHROMIUM ?? 'chromium', all, {
      stdio: ['ignore', 'ignore', 'ignore', 'pipe', 'pipe']
    });
    this.last = 0;
    this.waiting = new Map();
    this.pages = new Map();
    this.rest = '';
    this.process.stdio[4].setEncoding('utf8');
    this.process.stdio[4].on('data', (piece) => this.hear(piece));
  }

  hear(piece) {
    const texts = (this.rest + piece).split('\0');
    this.rest = texts.pop();
    for (const text of texts) {
      const {id, result, error, method, params, sessionId} = JSON.parse(text);
      if (id === undefined) {
        this.pages.get(sessionId)?.event(method, params);
        continue;
      }
      const {resolve, reject, asked} = this.waiting.get(id);
      this.waiting.delete(id);
      if (error)
        reject(new Error(`${asked}: ${error.message}`));
      else
        resolve(result);
    }
  }

  send(method, params = {}, sessionId = undefined) {
    const id = ++this.last;
    this.process.stdio[3].write(JSON.stringify({id, method, params, sessionId}) + '\0');
    return new Promise((resolve, reject) => this.waiting.set(id, {resolve, reject, asked: method}));
  }

  /** A new tab; `touch` makes it one of a phone. */
  async page({width = 1280, height = 800, touch = false, downloads = this.folder} = {}) {
    const {targetId} = await this.send('Target.createTarget', {url: 'about:blank'});
    const {sessionId} = await this.send('Target.attachToTarget', {targetId, flatten: true});
    const page = new Page(this, sessionId, targetId);
    this.pages.set(sessionId, page);
    for (const domain of ['Page', 'Runtime', 'Log']) await page.send(`${domain}.enable`);
    await page.send(
        'Emulation.setDeviceMetricsOverride',
        {width, height, deviceScaleFactor: touch ? 2 : 1, mobile: touch}
    );
    await page.send(
        'Emulation.setTouchEmulationEnabled', {enabled: touch, maxTouchPoints: touch ? 5 : 1}
    );
    await this.send('Browser.setDownloadBehavior', {behavior: 'allow', downloadPath: downloads});
    return page;
  }

  async close() {
    const ended = new Promise((go) => this.process.once('exit', go));
    this.send('Browser.close').catch(() => {});
    await Promise.race([ended, pause(5000).then(() => this.process.kill('SIGKILL'))]);
    rmSync(this.folder, {recursive: true, force: true, maxRetries: 5});
  }
}

/** A tab. */
export class Page {
  constructor(browser, sessionId, targetId) {
    Object.assign(
        this,
        {browser, sessionId, targetId, faults: [], dialogs: [], pressed: 0, at: [0, 0], wakes: []}
    );
  }

  send(method, params) {
    return this.browser.send(method, params, this.sessionId);
  }

  event(method, params) {
    this.hears?.(method, params);
    if (method === 'Runtime.exceptionThrown')
      this.faults.push(
          params.exceptionDetails.exception?.description ?? params.exceptionDetails.text
      );
    if (method === 'Runtime.consoleAPICalled' && params.type === 'error')
      this.faults.push(params.args.map((one) => one.description ?? one.value).join(' '));
    if (method === 'Log.entryAdded' && params.entry.level === 'error')
      this.faults.push(`${params.entry.text} ${params.entry.url ?? ''}`);
    if (method === 'Page.javascriptDialogOpening') {
      this.dialogs.push(params.type);
      this.send('Page.handleJavaScriptDialog', {accept: true});
    }
    if (method === 'Page.loadEventFired')
      for (const wake of this.wakes.splice(0)) wake();
  }

  async goto(url) {
    const loaded = new Promise((go) => this.wakes.push(go));
    await this.send('Page.navigate', {url});
    await loaded;
  }

  async reload() {
    const loaded = new Promise((go) => this.wakes.push(go));
    await this.send('Page.reload');
    await loaded;
  }

  /** A script that runs before those of the page, in each document from now on. */
  before(source) {
    return this.send('Page.addScriptToEvaluateOnNewDocument', {source});
  }

  /** The value of a function run in the page, awaited. */
  async run(what, ...words) {
    const expression = `(${what})(...${JSON.stringify(words)})`;
    const {result, exceptionDetails} = await this.send(
        'Runtime.evaluate', {expression, awaitPromise: true, returnByValue: true, userGesture: true}
    );
    if (exceptionDetails)
      throw new Error(
          `in the page: ${exceptionDetails.exception?.description ?? exceptionDetails.text}`
      );
    return result.value;
  }

  until(what, ...words) {
    return until(this, what, ...words);
  }

  mouse(type, x, y, {button = 'left', keys = 0, count = 1, wheel = null} = {}) {
    this.at = [x, y];
    const buttons = type === 'mouseMoved' ? this.pressed :
        type === 'mousePressed'           ? (this.pressed = BUTTONS[button]) :
                                            (this.pressed = 0);
    const named = type === 'mouseMoved' ? (this.pressed ? button : 'none') : button;
    const more = wheel ? {deltaX: wheel[0], deltaY: wheel[1]} : {};
    return this.send('Input.dispatchMouseEvent', {
      type,
      x,
      y,
      button: named,
      buttons,
      clickCount: type === 'mouseMoved' ? 0 : count,
      modifiers: keys,
      ...more
    });
  }

  /** Presses at the first point, goes over the others, and lets go. */
  async drag(points, {button = 'left', keys = 0, release = true} = {}) {
    const [[x, y], ...others] = points;
    await this.mouse('mouseMoved', x, y, {keys});
    await this.mouse('mousePressed', x, y, {button, keys});
    for (const [a, b] of others) await this.mouse('mouseMoved', a, b, {button, keys});
    if (release) await this.mouse('mouseReleased', ...points.at(-1), {button, keys});
  }

  /** Fingers that press, move in steps and are lifted: each a list of points. */
  async touch(...fingers) {
    const points = (step) => fingers.map((finger, id) => ({
                                           x: finger[Math.min(step, finger.length - 1)][0],
                                           y: finger[Math.min(step, finger.length - 1)][1],
                                           id
                                         }));
    await this.send('Input.dispatchTouchEvent', {type: 'touchStart', touchPoints: points(0)});
    for (let step = 1; step < Math.max(...fingers.map((finger) => finger.length)); step++)
      await this.send('Input.dispatchTouchEvent', {type: 'touchMove', touchPoints: points(step)});
    await this.send('Input.dispatchTouchEvent', {type: 'touchEnd', touchPoints: []});
  }

  /** Keys one behind the other: 'a', 'Enter', 'Control+z'. */
  async press(...keys) {
    for (const name of keys) {
      const parts = name === '+' ? ['+'] : name.split('+');
      const key = parts.pop();
      const modifiers = parts.reduce((sum, one) => sum | MODIFIERS[one], 0);
      const [code, number, text] = NAMED[key] ?? [
        key.length === 1 && /[a-z]/i.test(key) ? `Key${key.toUpperCase()}` : '',
        /\w/.test(key) ? key.toUpperCase().charCodeAt(0) : 0,
        key
      ];  // the number of '.' would be that of Delete
      const what = {key, code, windowsVirtualKeyCode: number, modifiers};
      await this.send('Input.dispatchKeyEvent', {
        type: text && !(modifiers & 7) ? 'keyDown' : 'rawKeyDown',
        text: modifiers & 7 ? undefined : text,
        ...what
      });
      await this.send('Input.dispatchKeyEvent', {type: 'keyUp', ...what});
    }
  }

  async hold(key, isDown) {
    const [code, number] = NAMED[key];
    await this.send('Input.dispatchKeyEvent', {
      type: isDown ? 'rawKeyDown' : 'keyUp',
      key,
      code,
      windowsVirtualKeyCode: number,
      modifiers: isDown ? MODIFIERS[key] ?? 0 : 0
    });
  }

  /** The middle of an element in the window; what it is in is opened, as a menu or a swatch. */
  async middle(selector) {
    return this.run((wanted) => {
      const element = document.querySelector(wanted);
      if (!element) throw new Error(`there is no ${wanted}`);
      const closed = element.closest('[popover]:not(:popover-open)');
      if (closed)
        document
            .querySelector(
                closed.id === 'swatch' ? '#palette [aria-checked="true"]' :
                                         `[popovertarget="${closed.id}"]`
            )
            .click();
      element.scrollIntoView({block: 'nearest', inline: 'nearest'});
      const {left, top, width, height} = element.getBoundingClientRect();
      if (!width || !height) throw new Error(`${wanted} is not seen`);
      return [left + width / 2, top + height / 2];
    }, selector);
  }

  async click(selector, more = {}) {
    const [x, y] = await this.middle(selector);
    await this.drag([[x, y]], more);
  }

  async tap(selector) {
    await this.touch([await this.middle(selector)]);
  }

  async shot(path) {
    const {data} = await this.send('Page.captureScreenshot', {format: 'png'});
    writeFileSync(path, Buffer.from(data, 'base64'));
  }

  close() {
    return this.browser.send('Target.closeTarget', {targetId: this.targetId});
  }
}
