// Tests web/narrow.mjs on small modules: shifts of 128 bits, both halves of a pointer, records, and
// forms that it must refuse. Run: CLANG=the toolchain's clang node --test web/narrow_test.mjs. It
// links as web/build does.
import assert from 'node:assert/strict';
import {execFileSync, spawnSync} from 'node:child_process';
import {mkdtempSync, readFileSync, rmSync, symlinkSync, writeFileSync} from 'node:fs';
import {tmpdir} from 'node:os';
import {dirname, join} from 'node:path';
import {after, test} from 'node:test';
import {fileURLToPath} from 'node:url';

const CLANG = process.env.CLANG, HERE = dirname(fileURLToPath(import.meta.url)),
      folder = mkdtempSync(join(tmpdir(), 'narrow-'));
after(() => rmSync(folder, {recursive: true, force: true}));
const at = (name) => join(folder, name),
      run = (...words) => execFileSync(CLANG, words, {stdio: 'pipe'});
const TARGET = ['--target=wasm32-unknown-unknown', '--no-default-config'];
const HEAD =
    `target datalayout = "e-m:e-p270:32:32-p271:32:32-p272:64:64-i64:64-i128:128-f80:128-n8:16:32:64-S128"
target triple = "x86_64-unknown-linux-gnu"

`;
writeFileSync(at('empty.c'), '');
run(...TARGET, '-S', '-emit-llvm', '-x', 'c', at('empty.c'), '-o', at('layout.ll'));
symlinkSync(CLANG, at('wasm-ld'));

// Narrows a module of this text: whether it was taken.
function narrowed(text) {
  writeFileSync(at('wide.ll'), HEAD + text);
  return spawnSync(
             process.execPath,
             [join(HERE, 'narrow.mjs'), at('wide.ll'), at('layout.ll'), at('narrow.ll')]
         ).status === 0;
}

// A function of that name and head, whose lines are these.
const body = (head, ...lines) =>
    `define ${head} {\nstart:\n${lines.map((line) => `  ${line}\n`).join('')}}\n\n`;

const shift = (name, how) => body(
    `void @${name}(ptr %to, i64 %low, i64 %high, i64 %by)`,
    '%l = zext i64 %low to i128',
    '%h = zext i64 %high to i128',
    '%u = shl i128 %h, 64',
    '%x = or i128 %l, %u',
    '%n = zext i64 %by to i128',
    `%r = ${how} i128 %x, %n`,
    'store i128 %r, ptr %to, align 16',
    'ret void'
);

test('what is narrowed computes as the module of 64-bit pointers does', async () => {
  assert.ok(narrowed(
      shift('up', 'shl') + shift('down', 'lshr') +
      body('void @put(ptr %to, ptr %value)', 'store ptr %value, ptr %to, align 8', 'ret void') +
      body(
          'i64 @second(ptr %from)',
          '%r = load { i8, i64 }, ptr %from, align 8',
          '%x = extractvalue { i8, i64 } %r, 1',
          'ret i64 %x'
      ) +
      body(
          'i64 @behind(ptr %from)',
          '%r = load { ptr, i64 }, ptr %from, align 8',
          '%x = extractvalue { ptr, i64 } %r, 1',
          'ret i64 %x'
      ) +
      body(
          'i64 @first(ptr %from)',
          '%r = load { ptr, i64 }, ptr %from, align 8',
          '%x = extractvalue { ptr, i64 } %r, 0',
          '%y = ptrtoint ptr %x to i64',
          'ret i64 %y'
      ) +
      body(
          'i1 @below(double %x)',
          '%a = call double @llvm.arithmetic.fence.f64(double %x)',
          '%b = call double @llvm.arithmetic.fence.f64(double 3.000000e+00)',
          '%c = fcmp olt double %a, %b',
          'ret i1 %c'
      ) +
      'declare double @llvm.arithmetic.fence.f64(double)\n'
  ));
  for (const level of ['-O0', '-O3']) {
    run(...TARGET,
        level,
        '-Wno-override-module',
        '-c',
        '-x',
        'ir',
        at('narrow.ll'),
        '-o',
        at('narrow.o'));
    execFileSync(
        at('wasm-ld'),
        [
          '--no-entry',
          '--fatal-warnings',
          ...['up', 'down', 'put', 'second', 'behind', 'first', 'below'].map(
              (name) => `--export=${name}`
          ),
          at('narrow.o'),
          '-o',
          at('narrow.wasm')
        ],
        {stdio: 'pipe'}
    );
    const {instance: {exports: calls}} =
        await WebAssembly.instantiate(readFileSync(at('narrow.wasm')));
    const words = () => new BigUint64Array(calls.memory.buffer, 1024, 2), all = (1n << 128n) - 1n,
          half = (1n << 64n) - 1n;
    for (const x of [1n, all, 0x0123456789abcdef_fedcba9876543210n, 1n << 127n, half]) {
      for (const by of [0n, 1n, 31n, 32n, 63n, 64n, 65n, 100n, 127n]) {
        for (const [call, right] of [[calls.up, (x << by) & all], [calls.down, x >> by]]) {
          call(1024, BigInt.asIntN(64, x), BigInt.asIntN(64, x >> 64n), by);
          assert.equal(words()[0] | words()[1] << 64n, right, `${level}: ${x} by ${by}`);
        }
      }
    }
    assert.deepEqual(
        [-Infinity, 2.9999999999999996, 3, Infinity, NaN].map((x) => calls.below(x)),
        [1, 1, 0, 0, 0]
    );
    words().fill(half);
    calls.put(1024, 0x12345678);
    assert.equal(words()[0], 0x12345678n);
    words().set([7n, 9n]);
    assert.deepEqual([calls.second(1024), calls.behind(1024), calls.first(1024)], [9n, 9n, 7n]);
  }
});

test('forms whose meaning could change are refused', () => {
  const refused = {
    'a pointer out of a number':
        body('ptr @f(i64 %x)', '%p = inttoptr i64 %x to ptr', 'ret ptr %p'),
    'a record with a pointer as a constant':
        '@g = constant <{ ptr, i64 }> zeroinitializer, align 8\n',
    'a size that is asked for':
        'declare i64 @llvm.objectsize.i64.p0(ptr, i1 immarg, i1 immarg, i1 immarg)\n',
    'a step over values':
        body('ptr @f(ptr %p)', '%q = getelementptr i64, ptr %p, i64 1', 'ret ptr %q'),
    'a far step':
        body('ptr @f(ptr %p)', '%q = getelementptr i8, ptr %p, i64 1073741824', 'ret ptr %q'),
    'a record of three':
        body('void @f(ptr %p)', '%r = load { ptr, i64, i64 }, ptr %p, align 8', 'ret void'),
    'a fence of another number': body(
        'float @f(float %x)', '%r = call float @llvm.arithmetic.fence.f32(float %x)', 'ret float %r'
    ),
    'arithmetic that may be reordered':
        body('double @f(double %x)', '%r = fadd fast double %x, %x', 'ret double %r'),
    'a volatile load':
        body('i64 @f(ptr %p)', '%r = load volatile i64, ptr %p, align 8', 'ret i64 %r'),
  };
  assert.ok(narrowed(body('ptr @f(ptr %p)', '%q = getelementptr i8, ptr %p, i64 8', 'ret ptr %q')));
  for (const [what, text] of Object.entries(refused)) {
    assert.ok(!narrowed(text), what);
  }
});
