// Test of what is put off until a frame is drawn: with frames that the test draws itself. Run: node
// --test tests/page/page_frames.mjs
import assert from 'node:assert/strict';
import {test} from 'node:test';
import {behindFrame} from '../../page/base/events.js';

const waiting = [];
globalThis.requestAnimationFrame = (run) => waiting.push(run);
const draw = () => {
  for (const run of waiting.splice(0)) run(0);
};
const timers = () => new Promise((go) => {
  setTimeout(go);
});

test('what is put off runs once, behind the frame, with what holds by then', async () => {
  const seen = [];
  let value = 1;
  const later = behindFrame(() => seen.push(value));
  later();
  value = 2;
  later();
  await timers();
  assert.deepEqual(seen, [], 'no frame, no run');
  draw();
  assert.deepEqual(seen, [], 'not before the frame is drawn');
  value = 3;
  await timers();
  assert.deepEqual(seen, [3], 'once for both calls');
  later();
  draw();
  await timers();
  assert.deepEqual(seen, [3, 3], 'again after that');
});
