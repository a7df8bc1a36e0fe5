// The arguments of the program: what they ask for, or why they are refused. Node's parseArgs cuts
// them, and they are taken from the left, as the native program takes them: of two mistakes the
// first is reported. Help and the version go alone.
import {parseArgs} from 'node:util';
import {Ending, ended} from './ending.mjs';

const HELP = {
  help: {type: 'boolean', short: 'h'}
};
const BACKGROUND = {
  background: {type: 'string'}
};
const TOP = {
  ...HELP,
  version: {type: 'boolean', short: 'V'}
};
const CHECK = {
  files: 2,
  options: {...HELP, ...BACKGROUND, givens: {type: 'string'}}
};
const COMMANDS = {
  work: {
    files: 1,
    options: {...HELP, ...BACKGROUND, format: {type: 'string'}, history: {type: 'string'}}
  },
  check: CHECK,
  assess: {
    files: Infinity,
    options: {
      ...HELP,
      ...BACKGROUND,
      format: {type: 'string'},
      allow: {type: 'string'},
      givens: {type: 'string'},
      certificate: {type: 'string'}
    },
  },
  prove: {
    files: 1,
    options: {
      ...HELP,
      ...BACKGROUND,
      format: {type: 'string'},
      givens: {type: 'string'},
      complete: {type: 'boolean'}
    }
  },
};
const FORMATS = {
  work: ['ppm', 'non'],
  assess: ['ppm', 'non'],
  prove: ['1', '2']
};
const MOST_SAMPLE = 65535;
const BOUNDS = {
  history: [1, 1000]
};  // of numbers

function refuse(why) {
  throw new Ending(2, `error: ${why}\n\nFor more information, try 'nonobench --help'.\n`);
}

const tokensOf = (args, options) =>
    parseArgs({args, options, strict: false, allowPositionals: true, tokens: true}).tokens;

// What is wrong with the value of an option, if anything. A background is looked at later, when all
// else is known to be right.
function wrongValue(command, name, value) {
  if (name === 'format' && !FORMATS[command].includes(value))
    return `it must be ${FORMATS[command].join(' or ')}`;
  if (!Object.hasOwn(BOUNDS, name)) return undefined;
  if (!/^\+?[0-9]+$/.test(value)) return 'it must be a number';
  const [least, most] = BOUNDS[name];
  return Number(value) >= least && Number(value) <= most ? undefined :
                                                           `it must be ${least} to ${most}`;
}

// Takes the value of an option.
function takeOption(found, {name, rawName, value, inlineValue}, command) {
  const {options} = COMMANDS[command];
  if (!Object.hasOwn(options, name) || name === 'help')
    refuse(`unexpected argument '${rawName}' found`);
  const isFlag = options[name].type === 'boolean';
  if (isFlag && value !== undefined) refuse(`unexpected value '${value}' for '${rawName}' found`);
  if (!isFlag && (value === undefined || (!inlineValue && /^-./.test(value))))
    refuse(`a value is required for '${rawName}'`);
  const wrong = wrongValue(command, name, value);
  if (wrong) refuse(`invalid value '${value}' for '${rawName}': ${wrong}`);
  if (Object.hasOwn(found, name)) refuse(`the argument '${rawName}' cannot be used multiple times`);
  found[name] = isFlag || value;
}

// The background that is asked for, where one is: three samples with commas between them.
function backgroundOf({background, format}) {
  if (background === undefined) return undefined;
  const samples = background.split(',');
  if (samples.length !== 3 ||
      !samples.every((word) => /^[0-9]{1,5}$/.test(word) && Number(word) <= MOST_SAMPLE)) {
    throw ended(2, 'background must be R,G,B');
  }
  if (format === 'non') throw ended(2, 'background goes with ppm');
  return background;
}

// The allowance that is asked for, where one is: a number, or no bound.
function allowanceOf({allow}) {
  if (allow === undefined || allow === 'off') return allow;
  if (!/^[0-9]{1,5}$/.test(allow)) throw ended(2, 'allowance must be 0 to 99999 or off');
  return Number(allow);
}

// What the arguments of a command ask for.
function commandOf(command, args) {
  const {files: wanted, options} = COMMANDS[command];
  const files = [], found = {};
  for (const token of tokensOf(args, options)) {
    if (token.kind === 'option' && token.name === 'help' && token.value === undefined)
      return {task: 'help', page: command};
    if (token.kind === 'option') takeOption(found, token, command);
    if (token.kind === 'positional' && files.push(token.value) > wanted)
      refuse(`unexpected argument '${token.value}' found`);
  }
  if (files.length < (wanted === 2 ? 2 : 1))
    refuse(`${command} needs ${wanted === 2 ? 'a picture and a certificate' : 'a file'}`);
  const {
    format = command === 'prove' ? '2' : 'ppm',
    history = '100',
    givens,
    certificate,
    complete
  } = found;
  const more = {
    format,
    history: Number(history),
    background: backgroundOf(found),
    allowance: allowanceOf(found)
  };
  if (command === 'assess' && files.length > 1 && (givens ?? certificate) !== undefined)
    throw ended(2, 'givens and certificate go with one file');
  return {task: command, files, givens, certificate, complete, options: more};
}

// What `help` and the command behind it ask for.
function helpOf(args) {
  const [page = 'nonobench', more] = args;
  if (args.length > 0 && page !== 'help' && !Object.hasOwn(COMMANDS, page))
    refuse(`unrecognized subcommand '${page}'`);
  if (more !== undefined) refuse(`unrecognized subcommand '${more}'`);
  return {task: 'help', page};
}

// What the arguments ask for that begin with no command.
function topOf(args) {
  const [first] = tokensOf(args, TOP);
  if (first.kind === 'positional') refuse(`unrecognized subcommand '${first.value}'`);
  if (first.kind !== 'option')
    refuse('\'nonobench\' requires a subcommand but one was not provided');
  if (!Object.hasOwn(TOP, first.name) || first.value !== undefined)
    refuse(`unexpected argument '${first.rawName}' found`);
  return first.name === 'help' ? {task: 'help', page: 'nonobench'} : {task: 'version'};
}

// What some arguments ask for.
function readTask(args) {
  const [first, ...others] = args;
  if (Object.hasOwn(COMMANDS, first)) return commandOf(first, others);
  return first === 'help' ? helpOf(others) : topOf(args);
}

// Whether arguments that ask for help or the version ask for nothing else.
const asksAlone = (args) => args.length === 1 ||
    (args.length === 2 && (args[0] === 'help' || args[1] === '-h' || args[1] === '--help'));

/**
 * What the arguments ask for: {task}, which is 'clues', 'work', 'check', 'assess', 'prove', 'help'
 * or 'version', with {files, givens, certificate, complete, options} or {page}. Throws an Ending
 * where they are refused. Node puts U+FFFD for bytes that are not UTF-8, so an argument with it is
 * refused too.
 */
export function readWords(args) {
  if (args.some((word) => word.includes('\ufffd'))) throw ended(2, 'a word is not UTF-8');
  if (args.length === 0) return {task: 'clues', options: {format: 'ppm'}};
  const asked = readTask(args);
  if (['help', 'version'].includes(asked.task) && !asksAlone(args))
    throw ended(2, 'help and version go alone; a name that begins with - needs ./ or --');
  return asked;
}
