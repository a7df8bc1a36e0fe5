// Tests in the browser of roles, labels and contrast, and of large pictures; pictures of the page
// for the documents.
import assert from 'node:assert/strict';
import {readFileSync} from 'node:fs';
import {pause} from './page_browser.mjs';
import {SIZES, Trial, noise, ppmOf} from './page_trial.mjs';

// Controls without a name, texts whose contrast with what lies behind them is too low, roles
// outside what they belong to, references to nothing, and what takes the focus though it is hidden.
const COMPLAINTS = () => {
  const seen = [
    ...document.querySelectorAll(
        'button, input, select, textarea, a[href], [role=radio], [role=grid], [role=gridcell], [role=dialog], dialog, canvas[tabindex], section, aside, main, nav'
    )
  ].filter((one) => one.checkVisibility({
    visibilityProperty: true
  }) && !one.closest('[aria-hidden=true]'));
  const nameOfControl = (one) => one.getAttribute('aria-label') ||
      [...(one.getAttribute('aria-labelledby') ?? '').split(' ')]
          .map((id) => document.getElementById(id)?.textContent ?? '')
          .join('') ||
      [...(one.labels ?? [])].map((label) => label.textContent).join('') ||
      (one.matches('button, a, [role=radio]') ? one.textContent.trim() : '') || one.title;
  const nameless = seen.filter(
                           (one) => !nameOfControl(one)?.trim() &&
                               !one.matches('section:not([aria-label]), main, nav')
  ).map((one) => `no name: ${one.outerHTML.slice(0, 120)}`);
  const light = (ink) => {
    const [red, green, blue] = ink.map((sample) => {
      const part = sample / 255;
      return part <= 0.04045 ? part / 12.92 : ((part + 0.055) / 1.055) ** 2.4;
    });
    return 0.2126 * red + 0.7152 * green + 0.0722 * blue;
  };
  const pen = Object.assign(
                        document.createElement('canvas'), {width: 1, height: 1}
  ).getContext('2d', {willReadFrequently: true});
  const inkOf = (css, under) => {  // a colour as the screen has it, laid on another
    pen.fillStyle = `rgb(${under.join(' ')})`;
    pen.fillRect(0, 0, 1, 1);
    pen.fillStyle = css;
    pen.fillRect(0, 0, 1, 1);
    return [...pen.getImageData(0, 0, 1, 1).data.slice(0, 3)];
  };
  const behind = (one) =>
      (one ? inkOf(getComputedStyle(one).backgroundColor, behind(one.parentElement)) :
             [255, 255, 255]);
  const texts = [...document.querySelectorAll('body *')].filter(
      (one) => one.checkVisibility({visibilityProperty: true, opacityProperty: true}) &&
          !one.matches('option, script, style, :disabled, :disabled *') &&
          [...one.childNodes].some((node) => node.nodeType === 3 && node.textContent.trim())
  );
  const pale =
      texts
          .map((one) => {
            const ground = behind(one);
            const {color, fill} = getComputedStyle(one);
            const ink = one instanceof SVGElement ? fill : color;
            const [a, b] = [light(inkOf(ink, ground)), light(ground)].sort((x, y) => y - x);
            return [(a + 0.05) / (b + 0.05), one];
          })
          .filter(([ratio]) => ratio < 4.5)
          .map(([ratio, one]) => `contrast ${ratio.toFixed(2)}: ${one.outerHTML.slice(0, 100)}`);
  const ids = [...document.querySelectorAll('[id]')].map((one) => one.id);
  const twice =
      ids.filter((id, at) => ids.indexOf(id) !== at).map((id) => `the id ${id} stands twice`);
  const belongs = {radio: 'radiogroup', menuitem: 'menu', gridcell: 'row', row: 'grid'};
  const strayed =
      [...document.querySelectorAll('[role]')]
          .filter(
              (one) => belongs[one.getAttribute('role')] &&
                  !one.parentElement.closest(`[role=${belongs[one.getAttribute('role')]}]`)
          )
          .map(
              (one) =>
                  `outside its ${belongs[one.getAttribute('role')]}: ${one.outerHTML.slice(0, 80)}`
          );
  const unchosen = [...document.querySelectorAll('[role=radio]')]
                       .filter((one) => !one.hasAttribute('aria-checked'))
                       .map((one) => `no aria-checked: ${one.outerHTML.slice(0, 80)}`);
  const dangling = ['aria-labelledby', 'aria-describedby', 'aria-controls'].flatMap(
      (name) => [...document.querySelectorAll(`[${name}]`)].flatMap(
          (one) => one.getAttribute(name).split(' ').filter(
                                                        (id) => !document.getElementById(id)
          ).map((id) => `${name} of nothing: ${id}`)
      )
  );
  const buried = [...document.querySelectorAll(
                      '[aria-hidden=true] :is(button, input, select, a[href], [tabindex])'
                  )].filter((one) => one.checkVisibility())
                     .map((one) => `hidden, but takes the focus: ${one.outerHTML.slice(0, 80)}`);
  return [...nameless, ...pale, ...twice, ...strayed, ...unchosen, ...dangling, ...buried];
};

// What opens over the page: menus and dialogs, by their actions.
const OVER = ['resize', 'keys', 'about', 'print', 'paste', 'vision', 'palette-save'];
async function overThePage(trial, page, where) {
  for (const place of ['file', 'edit', 'picture', 'view', 'check']) {
    await page.run((one) => document.getElementById(`menu-${one}`).showPopover(), place);
    assert.deepEqual(await page.run(COMPLAINTS), [], `${where}, the menu ${place}`);
    await page.run((one) => document.getElementById(`menu-${one}`).hidePopover(), place);
  }
  for (const id of OVER) {
    await page.run((one) => runAction(one), id);
    await page.until(() => document.querySelector('dialog[open]'));
    assert.deepEqual(await page.run(COMPLAINTS), [], `${where}, the dialog ${id}`);
    await page.run(() => new Promise((go) => {
                     const dialog = document.querySelector('dialog[open]');
                     dialog.addEventListener('close', () => setTimeout(go));
                     dialog.close();
                   }));
  }
  await page.run((bytes) => {
    takeFile(new File([Uint8Array.from(bytes)], 'duck.png'));
  }, [...readFileSync(new URL('../../examples/duck.png', import.meta.url))]);
  await page.until(() => document.querySelector('#import-facts')?.textContent);
  assert.deepEqual(await page.run(COMPLAINTS), [], `${where}, a picture into a puzzle`);
  await page.run(() => new Promise((go) => {
                   const dialog = document.querySelector('dialog[open]');
                   dialog.addEventListener('close', () => setTimeout(go));
                   dialog.close();
                 }));
}

export async function rolesAndContrast({browser, url, folder}) {
  for (const scheme of ['light', 'dark']) {
    for (const [name, size] of Object.entries(SIZES)) {
      const trial = await Trial.start(browser, url, folder, size);
      const {page} = trial;
      await page.send('Emulation.setEmulatedMedia', {
        features: [
          {name: 'prefers-color-scheme', value: scheme},
          {name: 'prefers-reduced-motion', value: 'reduce'}
        ]
      });
      await pause(300);
      assert.deepEqual(await page.run(COMPLAINTS), [], `${scheme}, ${name}, the start screen`);
      await trial.example('apple');
      await trial.judged();
      await page.run(() => {
        if (document.getElementById('verdict-open').checkVisibility())
          document.getElementById('verdict-open').click();
        runAction('fix');
      });
      assert.deepEqual(await page.run(COMPLAINTS), [], `${scheme}, ${name}, the bench`);
      await page.shot(`${folder}/page-${name}-${scheme}.png`);
      await overThePage(trial, page, `${scheme}, ${name}`);
      await page.run(() => runAction('play'));
      assert.deepEqual(await page.run(COMPLAINTS), [], `${scheme}, ${name}, Play`);
      await page.close();
    }
  }
}

export async function byKeysAlone({trial, page}) {
  await trial.example('apple');
  await trial.judged();
  await page.run(() => document.activeElement?.blur());
  const met = new Set();
  for (let step = 0; step < 90; step++) {
    await page.press('Tab');
    met.add(await page.run(() => {
      const one = document.activeElement;
      return one.id || one.dataset.action || one.dataset.tool || one.dataset.letter ||
          one.className || one.textContent;
    }));
  }
  for (const wanted of ['other', 'fix', 'play', 'hatching', 'seconds', 'undo', 'fit'])
    assert.ok(
        [...met].some((one) => one.includes(wanted)) ||
            await page.run(
                (id) => document.querySelector(`[data-action="${id}"]`)?.disabled, wanted
            ),
        `Tab does not reach ${wanted}: ${[...met].join(', ')}`
    );
}

export async function largePictures({browser, url, folder}) {
  for (const size of [SIZES.small, SIZES.large]) {
    const trial = await Trial.start(browser, url, folder, size);
    const {page} = trial;
    await trial.open(ppmOf(noise(120, 120, '...aabc')), 'large');
    await trial.settled();
    const fits = () => page.run(() => {
      const {geometry: at} = sheet;
      return [at.x(at.columns) <= at.width && at.y(at.rows) <= at.height, at.cell / at.scale];
    });
    const [whole, side] = await fits();
    assert.ok(whole && side >= 3, `Fit shows all of it, ${side} px a cell`);
    const middle = await trial.cell(60, 60);
    for (let step = 0; step < 6; step++)
      await page.send(
          'Input.dispatchMouseEvent',
          {type: 'mouseWheel', x: middle[0], y: middle[1], deltaX: 0, deltaY: -120}
      );
    await page.until((least) => sheet.geometry.cell / sheet.geometry.scale > least, side + 2);
    const before = await page.run(() => [sheet.geometry.panX, sheet.geometry.panY]);
    await page.drag([middle, [middle[0] - 60, middle[1] - 40]], {button: 'middle'});
    assert.notDeepEqual(
        await page.run(() => [sheet.geometry.panX, sheet.geometry.panY]),
        before,
        'the middle button pans'
    );
    await page.press('z');
    assert.equal((await fits())[0], true, 'and Fit by its key');
    assert.deepEqual(page.faults, []);
    await page.shot(`${folder}/large-${size.width}.png`);
    await page.close();
  }
}

/** Nothing is asked of a network, and the page's policy refuses what would. */
export async function nothingIsSent({browser, url, folder}) {
  const trial = await Trial.start(browser, url, folder);
  const {page} = trial;
  const asked = [];
  const plain = page.event.bind(page);
  page.event = (method, params) => {
    if (method === 'Network.requestWillBeSent') asked.push(params.request.url);
    plain(method, params);
  };
  await page.send('Network.enable');
  await trial.load();
  await trial.example('apple');
  await trial.judged();
  await page.run(() => {
    runAction('fix');
    document.getElementById('fix-paint').click();
  });
  await page.until(() => !searches.running);
  assert.deepEqual(asked.filter((one) => !/^(file|blob|data):/.test(one)), []);
  assert.ok(asked.some((one) => one.startsWith('file:')), 'requests are seen');
  assert.equal(
      await page.run(() => fetch('http://127.0.0.1:9/x').then(() => 'sent', (fault) => fault.name)),
      'TypeError'
  );
  assert.ok(
      page.faults.some((one) => /Content Security Policy/.test(one)),
      `the policy refuses it: ${page.faults}`
  );
  await page.close();
}

/**
 * A browser without scripts, or without what the page needs, is told which browsers have it, and
 * shows nothing else.
 */
export async function lacksAreTold({browser, url}) {
  const shown = (page) => page.run(
      () => [...document.body.children]
                .filter((one) => one.checkVisibility() && one.offsetHeight > 0)
                .map((one) => one.id)
  );
  const lacking = [
    ['', ['start', 'bar']],
    ['delete HTMLElement.prototype.popover;', ['needs']],
    ['delete WebAssembly.validate;', ['needs']],
    ['CSS.supports = (what) => !/:has/.test(what);', ['needs']],
    [null, ['needs']]
  ];
  for (const [before, wanted] of lacking) {
    const page = await browser.page();
    if (before === null)
      await page.send('Emulation.setScriptExecutionDisabled', {value: true});
    else
      await page.before(before);
    await page.goto(url);
    await pause(200);
    assert.deepEqual(
        (await shown(page)).filter((id) => ['needs', 'start', 'bar'].includes(id)),
        wanted,
        before ?? 'no scripts'
    );
    if (wanted.includes('needs'))
      assert.match(
          await page.run(() => document.getElementById('needs').innerText),
          /Chrome or Edge 114.*neueren.*navigateur/s
      );
    await page.close();
  }
}
