// A headless Firefox by Marionette, its own protocol: a tab, mouse and keys, with the calls that
// page_browser.mjs has for Chromium.
import {spawn} from 'node:child_process';
import {existsSync, mkdtempSync, readFileSync, rmSync, writeFileSync} from 'node:fs';
import {connect} from 'node:net';
import {tmpdir} from 'node:os';
import {join} from 'node:path';
import {pause, until} from './page_browser.mjs';

const KEYS = {
  Shift: '\ue008',
  Control: '\ue009',
  Alt: '\ue00a',
  Enter: '\ue007',
  Escape: '\ue00c',
  Tab: '\ue004',
  Backspace: '\ue003',
  Delete: '\ue017',
  Home: '\ue011',
  End: '\ue010',
  ArrowLeft: '\ue012',
  ArrowUp: '\ue013',
  ArrowRight: '\ue014',
  ArrowDown: '\ue015',
  PageUp: '\ue00e',
  PageDown: '\ue00f',
};

/**
 * A headless Firefox with a profile of its own, by its protocol: a length, a colon and JSON. It
 * has one tab.
 */
export class Firefox {
  static async start(downloads) {
    const browser = new Firefox();
    browser.folder = mkdtempSync(join(tmpdir(), 'nonobench-firefox-'));
    const prefs = {
      'marionette.port': 0,
      'browser.download.dir': downloads,
      'browser.download.folderList': 2,
      'browser.download.useDownloadDir': true,
      'browser.download.always_ask_before_handling_new_types': false,
      'browser.shell.checkDefaultBrowser': false,
      'app.update.enabled': false,
      'datareporting.policy.dataSubmissionEnabled': false,
      'toolkit.telemetry.enabled': false,
      'network.proxy.type': 0,
    };
    const lines = Object.entries(prefs
    ).map(([name, value]) => `user_pref(${JSON.stringify(name)}, ${JSON.stringify(value)});\n`);
    writeFileSync(join(browser.folder, 'user.js'), lines.join(''));
    const words = [
      '--headless',
      '--marionette',
      '--remote-allow-system-access',
      '--no-remote',
      '--profile',
      browser.folder
    ];
    browser.process = spawn(
        process.env.FIREFOX ?? 'firefox-esr',
        words,
        {stdio: 'ignore', env: {...process.env, MOZ_DISABLE_CONTENT_SANDBOX: '1'}}
    );
    const active = join(browser.folder, 'MarionetteActivePort');
    for (let tries = 0; !existsSync(active) || !readFileSync(active, 'utf8'); tries++) {
      if (tries > 600) throw new Error('Firefox does not start');
      await pause(100);
    }
    await browser.join(Number(readFileSync(active, 'utf8')));
    return browser;
  }

  async join(port) {
    Object.assign(this, {waiting: new Map(), last: 0, rest: Buffer.alloc(0)});
    this.socket = connect(port, '127.0.0.1');
    this.socket.on('data', (piece) => this.hear(piece));
    await new Promise((go, stop) => {
      this.hello = go;
      this.socket.once('error', stop);
    });
    await this.send(
        'WebDriver:NewSession', {capabilities: {alwaysMatch: {acceptInsecureCerts: true}}}
    );
  }

  hear(piece) {
    this.rest = Buffer.concat([this.rest, piece]);
    for (let colon = this.rest.indexOf(58); colon > 0; colon = this.rest.indexOf(58)) {
      const size = Number(this.rest.subarray(0, colon));
      if (this.rest.length < colon + 1 + size) return;
      const message = JSON.parse(this.rest.subarray(colon + 1, colon + 1 + size));
      this.rest = this.rest.subarray(colon + 1 + size);
      if (!Array.isArray(message)) {
        this.hello();
        continue;
      }
      const [, id, error, result] = message;
      const {go, stop} = this.waiting.get(id);
      this.waiting.delete(id);
      if (error)
        stop(new Error(`${error.error}: ${error.message}`));
      else
        go(result?.value !== undefined && Object.keys(result).length === 1 ? result.value : result);
    }
  }

  send(command, words = {}) {
    const id = ++this.last, text = Buffer.from(JSON.stringify([0, id, command, words]));
    this.socket.write(Buffer.concat([Buffer.from(`${text.length}:`), text]));
    return new Promise((go, stop) => this.waiting.set(id, {go, stop}));
  }

  async close() {
    const ended = new Promise((go) => this.process.once('exit', go));
    this.send('Marionette:Quit', {flags: ['eForceQuit']}).catch(() => {});
    await Promise.race([ended, pause(5000).then(() => this.process.kill('SIGKILL'))]);
    this.socket.destroy();
    rmSync(this.folder, {recursive: true, force: true, maxRetries: 5});
  }
}

/** The tab, with the calls of a page that a Trial makes. */
export class Tab {
  constructor(browser) {
    Object.assign(this, {browser, faults: []});
  }

  goto(url) {
    return this.browser.send('WebDriver:Navigate', {url});
  }

  // A function run over the page's own objects. The page's policy lets no script into it, so the
  // browser's sandbox runs it.
  async run(what, ...words) {
    const script = `with (window.wrappedJSObject ?? window) {
            return Promise.resolve().then(() => (${
        what})(...JSON.parse(arguments[0]))).then((value) => JSON.stringify({ value }), (fault) => JSON.stringify({ fault: String(fault.stack ?? fault) }));
        }`;
    const {value, fault} = JSON.parse(
        await this.browser.send('WebDriver:ExecuteScript', {script, args: [JSON.stringify(words)]})
    );
    if (fault) throw new Error(`in the page: ${fault}`);
    return value;
  }

  until(what, ...words) {
    return until(this, what, ...words);
  }

  act(actions) {
    return this.browser.send('WebDriver:PerformActions', {actions});
  }

  /** Presses at the first point, goes over the others, and lets go. */
  drag(points) {
    const moves = points.map(
        ([x, y]) => ({type: 'pointerMove', duration: 0, x: Math.round(x), y: Math.round(y)})
    );
    const actions = [
      moves[0],
      {type: 'pointerDown', button: 0},
      ...moves.slice(1),
      {type: 'pointerUp', button: 0}
    ];
    return this.act([{type: 'pointer', id: 'mouse', parameters: {pointerType: 'mouse'}, actions}]);
  }

  async click(selector) {
    await this.drag([await this.run((wanted) => {
      const element = document.querySelector(wanted);
      if (!element) throw new Error(`there is no ${wanted}`);
      element.scrollIntoView({block: 'nearest', inline: 'nearest'});
      const {left, top, width, height} = element.getBoundingClientRect();
      return [left + width / 2, top + height / 2];
    }, selector)]);
  }

  async press(...names) {
    for (const name of names) {
      const keys = name.split('+').map((key) => KEYS[key] ?? key);
      const actions = [
        ...keys.map((value) => ({type: 'keyDown', value})),
        ...keys.reverse().map((value) => ({type: 'keyUp', value}))
      ];
      await this.act([{type: 'key', id: 'keys', actions}]);
    }
  }

  async shot(path) {
    writeFileSync(
        path,
        Buffer.from(await this.browser.send('WebDriver:TakeScreenshot', {full: false}), 'base64')
    );
  }
}
