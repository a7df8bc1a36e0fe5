// Makes LLVM's module of a proved crate one for another system with 64-bit pointers: node
// platforms/retarget.mjs WIDE.ll LAYOUT.ll TO.ll. WIDE.ll is the module as text, before any pass;
// LAYOUT.ll is an empty file as clang compiles it for that system.
//
// What functions compute stays as it is. The module's target becomes that of LAYOUT.ll, and
// attributes no longer name a processor of Linux on x86-64. Large frames are probed, so that a
// stack that overflows ends the process: by code in place, as the module asks, or, for Windows, by
// the function that its compilers call, and there functions can be unwound. On some systems a
// caller leaves the upper bits of a bool as they are, so what is exported does not rely on them. Of
// a program, `main`, which looks at an x86-64 processor, becomes `nonobench_main`, and each call of
// the system gets a name of its own: platforms/linux.c and platforms/windows.c have these calls. A
// module that calls anything but these and the heap is refused.
import {readFileSync} from 'node:fs';
import {refuse, retargeted, rewrite, targetOf} from '../web/module.mjs';

const [wide, layout, to] = process.argv.slice(2);
const target = targetOf(layout);
const isWindows = target.some((line) => line.includes('-windows-'));
const TIES = [
  'target-cpu',
  'target-features',
  'tune-cpu',
  ...isWindows ? ['probe-stack', 'stack-probe-size'] : []
];

// What a module may call: the heap, the system, and what clang knows by itself. `main` alone calls
// those that come last.
const SYSTEM = ['open', 'read', 'write', 'close', 'lseek'];
const CALLED = new RegExp([
  'rattle_(?:alloc|realloc|dealloc)',
  'rattle_(?:arg|env|env_at|errno|set_errno)',
  ...SYSTEM,
  'llvm\\.trap',
  'llvm\\.(?:ctlz|cttz|ctpop)\\.i\\d+',
  'llvm\\.mem(?:set\\.p0|move\\.p0\\.p0)\\.i64',
  'llvm\\.arithmetic\\.fence\\.f64'
].map((name) => `^${name}$`).join('|'));
const OF_MAIN = ['__sysv_signal', '__x86_get_cpuid_feature_leaf', '__write'];
const MAIN = /^define i32 @main\(\)( #\d+)? \{\n[^]*?\n\}$/m;
const named = (line) => line.replace(new RegExp(` @(${SYSTEM.join('|')})\\(`, 'g'), ' @system_$1(');

// Nothing within a function may be of one processor alone.
function instruction(line) {
  if (/^(?:.* )?asm |addrspace|x86_|ppc_/.test(line)) refuse(line);
  return [named(line)];
}

function declared(line) {
  const name = / @([\w.]+)\(/.exec(line)?.[1];
  if (OF_MAIN.includes(name)) return [];
  if (!CALLED.test(name)) refuse(line);
  return [named(line)];
}

function outside(line) {
  const about = retargeted(line, target, TIES);
  const isProbed = isWindows && line.includes('"probe-stack"=');
  if (about)
    return isProbed ? about.map((one) => one.replace(' nounwind', ' nounwind uwtable')) : about;
  if (line.startsWith('declare ')) return declared(line);
  if (/^define (?!internal )/.test(line)) return [line.replaceAll(/ (?:zeroext|signext)\b/g, '')];
  if (!/^(?:;.*|source_filename = .*|![\w.]+ = .*|@.* = .*|define .*|\})?$/.test(line))
    refuse(line);
  return [line];
}

const text =
    readFileSync(wide, 'utf8')
        .replace(
            MAIN,
            (_, about = '') => `define i32 @nonobench_main()${
                about} {\nstart:\n  %status = call i32 @"nonobench::main+start"()\n  ret i32 %status\n}`
        );
rewrite(text, to, instruction, outside);
