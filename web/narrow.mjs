// Makes LLVM's module of the proved crate, which is for 64-bit pointers, one for WebAssembly with a
// 32-bit memory: node web/narrow.mjs WIDE.ll LAYOUT.ll NARROW.ll. WIDE.ll is the module as text,
// before any pass; LAYOUT.ll is an empty file as clang compiles it for wasm32, for its layout and
// triple.
//
// What lies in memory stays as it was, byte for byte: a pointer has 8 bytes there, and the upper
// four are zero, since each address is below 2^32. So a pointer's place keeps its 8 bytes, a store
// of one writes both halves, a load of one reads the lower half, and a load of several values at
// once is a load for each, at the offsets of 64-bit pointers. All other offsets are numbers in the
// text already. Constant offsets are marked as ones that no address overflows by: memory ends at 1
// GiB. Shifts of 128 bits by distances that vary are put out as such of 64 bits. A fence of a
// number is the number: arithmetic that may be reordered is refused. Each line must have a form
// that is named here; any other ends this with status 1.
import {readFileSync} from 'node:fs';
import {number, refuse, retargeted, rewrite, targetOf} from './module.mjs';

const [wide, layout, narrow] = process.argv.slice(2);
const MOST = 2 ** 30;
const TIES = [
  'target-cpu',
  'target-features',
  'tune-cpu',
  'frame-pointer',
  'probe-stack',
  'stack-probe-size'
];
const CALLED = [
  'declare { i64, i64 } @rattle_alloc(i64 noundef, i64 noundef)',
  'declare { i64, i64 } @rattle_realloc(ptr noundef, i64 noundef, i64 noundef, i64 noundef)',
  'declare void @rattle_dealloc(ptr noundef)',
];

// Types: numbers, vectors of them, and rows of bytes. Pointers stand alone or in a record of two.
const NUMBER = 'i1|i8|i16|i32|i64|i128|double';
const PLAIN = `(?:${NUMBER}|<\\d+ x i\\d+>|\\[\\d+ x i8\\])`;
const NAME = '[%@](?:[\\w.]+|"[^"]*")';
const MARKS = '(?:, ![a-z]+ !\\d+)*';
const form = (text) => new RegExp(`^${
    text.replaceAll('NUMBER', `(?:${NUMBER})`)
        .replaceAll('PLAIN', PLAIN)
        .replaceAll('NAME', NAME)
        .replaceAll('MARKS', MARKS)}$`);

const SIZES = {
  i1: 1,
  i8: 1,
  i16: 2,
  i32: 4,
  i64: 8,
  i128: 16,
  double: 8,
  ptr: 8
};

// Where the second value of a record lies, with pointers of 64 bits.
const second = (one, other) => Math.ceil(SIZES[one] / SIZES[other]) * SIZES[other];

// A shift of 128 bits by a distance that varies: the halves are shifted by it modulo 64, and by 64
// more where it is larger.
function shifted(to, how, value, by) {
  const up = how === 'shl', near = up ? 'low' : 'high', far = up ? 'high' : 'low',
        back = up ? 'lshr' : 'shl';
  const at = (name) => `${to}.${name}`;
  return [
    `${at('low')} = trunc i128 ${value} to i64`,
    `${at('top')} = lshr i128 ${value}, 64`,
    `${at('high')} = trunc i128 ${at('top')} to i64`,
    `${at('by')} = trunc i128 ${by} to i64`,
    `${at('n')} = and i64 ${at('by')}, 63`,
    `${at('m')} = xor i64 ${at('n')}, 63`,
    `${at('a')} = ${how} i64 ${at(near)}, ${at('n')}`,
    `${at('b')} = ${how} i64 ${at(far)}, ${at('n')}`,
    `${at('c')} = ${back} i64 ${at(near)}, 1`,
    `${at('d')} = ${back} i64 ${at('c')}, ${at('m')}`,
    `${at('e')} = or i64 ${at('b')}, ${at('d')}`,
    `${at('f')} = and i64 ${at('by')}, 64`,
    `${at('g')} = icmp eq i64 ${at('f')}, 0`,
    `${at('near')} = select i1 ${at('g')}, i64 ${at('a')}, i64 0`,
    `${at('far')} = select i1 ${at('g')}, i64 ${at('e')}, i64 ${at('a')}`,
    `${at('x')} = zext i64 ${at(up ? 'near' : 'far')} to i128`,
    `${at('y')} = zext i64 ${at(up ? 'far' : 'near')} to i128`,
    `${at('z')} = shl i128 ${at('y')}, 64`,
    `${to} = or i128 ${at('x')}, ${at('z')}`,
  ];
}

// A length of bytes as 32 bits, with what makes it so.
function length(size) {
  if (size.startsWith('%'))
    return {first: [`%narrow.${number} = trunc i64 ${size} to i32`], size: `%narrow.${number}`};
  if (Number(size) >= MOST) refuse(size);
  return {first: [], size};
}

// The forms of instructions that change, each with what they become.
const CHANGED = [
  ['(NAME) = alloca ptr, align 8', (to) => [`${to} = alloca [8 x i8], align 8`]],
  [
    '(NAME) = load \\{ (NUMBER|ptr), (NUMBER|ptr) \\}, ptr (NAME), align (\\d+)MARKS',
    (to, one, other, from, align) => {
      const at = second(one, other), near = Math.min(Number(align), at);
      return [
        `${to}.one = load ${one}, ptr ${from}, align ${align}`,
        `${to}.at = getelementptr nuw i8, ptr ${from}, i32 ${at}`,
        `${to}.other = load ${other}, ptr ${to}.at, align ${near}`,
        `${to}.half = insertvalue { ${one}, ${other} } poison, ${one} ${to}.one, 0`,
        `${to} = insertvalue { ${one}, ${other} } ${to}.half, ${other} ${to}.other, 1`,
      ];
    }
  ],
  [
    'store \\{ (NUMBER), (NUMBER) \\} (NAME), ptr (NAME), align (\\d+)',
    (one, other, value, to, align) => {
      const at = second(one, other), made = `%narrow.${number}`;
      return [
        `${made}.one = extractvalue { ${one}, ${other} } ${value}, 0`,
        `store ${one} ${made}.one, ptr ${to}, align ${align}`,
        `${made}.at = getelementptr nuw i8, ptr ${to}, i32 ${at}`,
        `${made}.other = extractvalue { ${one}, ${other} } ${value}, 1`,
        `store ${other} ${made}.other, ptr ${made}.at, align ${Math.min(Number(align), at)}`,
      ];
    }
  ],
  [
    'store ptr (NAME|null), ptr (NAME), align (\\d+)',
    (value, to, align) =>
        [`store ptr ${value}, ptr ${to}, align ${align}`,
         `%narrow.${number} = getelementptr nuw i8, ptr ${to}, i32 4`,
         `store i32 0, ptr %narrow.${number}, align ${Math.min(Number(align), 4)}`,
]
  ],
  [
    '(NAME) = getelementptr (?:inbounds nuw )?i8, ptr (NAME), i64 (\\d+)',
    (to, from, by) => {
      if (Number(by) >= MOST) refuse(by);
      return [`${to} = getelementptr nuw i8, ptr ${from}, i32 ${by}`];
    }
  ],
  [
    '(NAME) = (?:ptrtoaddr|ptrtoint) ptr (NAME) to i64',
    (to, from) => [`${to} = ptrtoint ptr ${from} to i64`]
  ],
  [
    'call void @llvm\\.memset\\.p0\\.i64\\(ptr (NAME), i8 (NAME|-?\\d+), i64 (NAME|\\d+), i1 false\\)',
    (to, byte, given) => {
      const {first, size} = length(given);
      return [
        ...first,
        `call void @llvm.memset.p0.i32(ptr ${to}, i8 ${byte}, i32 ${size}, i1 false)`
      ];
    }
  ],
  [
    'call void @llvm\\.memmove\\.p0\\.p0\\.i64\\(ptr (NAME), ptr (NAME), i64 (NAME|\\d+), i1 false\\)',
    (to, from, given) => {
      const {first, size} = length(given);
      return [
        ...first,
        `call void @llvm.memmove.p0.p0.i32(ptr ${to}, ptr ${from}, i32 ${size}, i1 false)`
      ];
    }
  ],
  ['(NAME) = (shl|lshr) i128 (NAME|\\d+), (NAME)', shifted],
  [
    '(NAME) = call double @llvm\\.arithmetic\\.fence\\.f64\\(double (NAME|-?[\\w.+]+)\\)',
    (to, value) => [`${to} = fmul double ${value}, 1.000000e+00`]
  ],
].map(([text, make]) => [form(text), make]);

// The forms that stay: those of numbers, with pointers as whole values alone.
const VALUE = `(?:${
    NAME}|-?\\d+|true|false|null|zeroinitializer|0x[0-9A-F]+|-?\\d\\.\\d+e[+-]\\d+|<(?:i\\d+ -?\\d+(?:, )?)+>)`;
const TYPE = `(?:${PLAIN}|ptr|void|\\{ (?:${NUMBER}|ptr), (?:${NUMBER}|ptr) \\})`;
const ARGUMENT = `${TYPE} (?:noundef |zeroext |signext )*${VALUE}`;
const STAYS = [
  `NAME = alloca PLAIN, align \\d+`,
  `NAME = load (?:PLAIN|ptr), ptr NAME, align \\d+MARKS`,
  `store PLAIN ${VALUE}, ptr NAME, align \\d+`,
  `NAME = getelementptr (?:inbounds |nuw |nusw )*i8, ptr NAME, i64 ${NAME}`,
  `NAME = (?:add|sub|mul|udiv|sdiv|urem|srem|and|or|xor|shl|lshr|ashr|fadd|fsub|fmul|fdiv)(?: nuw| nsw| exact| disjoint)* PLAIN ${
      VALUE}, ${VALUE}`,
  `NAME = (?:icmp(?: samesign)?|fcmp) \\w+ (?:PLAIN|ptr) ${VALUE}, ${VALUE}`,
  `NAME = (?:zext|sext|trunc|bitcast|uitofp|sitofp|fptoui|fptosi)(?: nneg| nuw| nsw)* PLAIN ${
      VALUE} to PLAIN`,
  `NAME = extractvalue ${TYPE} NAME, \\d`,
  `NAME = (?:insertelement|shufflevector) <\\d+ x i\\d+> .*`,
  `(?:NAME = )?call (?:noundef |zeroext |signext |range\\([^)]*\\) )*${
      TYPE} @(?!llvm\\.mem)(?:[\\w.]+|"[^"]*")\\((?:${ARGUMENT}(?:, )?)*\\)(?: #\\d+)?`,
  `br label NAME(?:, !\\w+ !\\d+)?`,
  `br i1 ${VALUE}, label NAME, label NAME(?:, !\\w+(?:\\.\\w+)* !\\d+)?`,
  `switch i\\d+ ${VALUE}, label NAME \\[`,
  `  i\\d+ -?\\d+, label NAME`,
  `\\]`,
  `ret void`,
  `ret ${TYPE} ${VALUE}`,
  `unreachable`,
].map(form);

function instruction(line) {
  for (const [shape, make] of CHANGED) {
    const found = shape.exec(line);
    if (found) return make(...found.slice(1));
  }
  if (!STAYS.some((shape) => shape.test(line))) refuse(line);
  return [line];
}

// The lines outside of functions.
const OUTSIDE = [
  /^(?:;.*|source_filename = .*|![\w.]+ = .*|\})?$/,
  form(
      `@(?:[\\w.]+|"[^"]*") = (?:private |internal |unnamed_addr )*constant PLAIN (?!.*\\bptr\\b).*, align \\d+`
  ),
  /^declare (?:void @llvm\.trap\(\)|i\d+ @llvm\.(?:ctlz|cttz|ctpop)\.i\d+\(i\d+(?:, i1 immarg)?\))(?: #\d+)?$/,
  form(`define (?:internal )?(?:noundef |zeroext |signext |range\\([^)]*\\) )*${
      TYPE} @(?:[\\w.]+|"[^"]*")\\((?:(?:PLAIN|ptr)(?: noundef| zeroext| signext)* NAME(?:, )?)*\\)(?: unnamed_addr)?(?: #\\d+)? \\{`
  ),
];
const target = targetOf(layout);

function outside(line) {
  const about = retargeted(line, target, TIES);
  if (about) return about;
  if (line.startsWith('declare void @llvm.memset.p0.i64('))
    return ['declare void @llvm.memset.p0.i32(ptr, i8, i32, i1)'];
  if (/^declare double @llvm\.arithmetic\.fence\.f64\(double\)(?: #\d+)?$/.test(line)) return [];
  if (line.startsWith('declare void @llvm.memmove.p0.p0.i64('))
    return ['declare void @llvm.memmove.p0.p0.i32(ptr, ptr, i32, i1)'];
  if (CALLED.includes(line.replace(/ #\d+$/, ''))) return [line];
  if (!OUTSIDE.some((shape) => shape.test(line))) refuse(line);
  return [line];
}

rewrite(readFileSync(wide, 'utf8'), narrow, instruction, outside);
