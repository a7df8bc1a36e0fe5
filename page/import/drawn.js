// How much a browser draws of an SVG drawing: each element, as often as `use`, patterns, markers,
// masks, clips and filters repeat it.

/** The elements that a drawing may come to. */
export const MOST_DRAWN = 20000;

// of an element: to look at each takes the browser a time like the square of their number
const MOST_ATTRIBUTES = 100;

const GRADIENTS = new Set(['linearGradient', 'radialGradient']);
const TARGETS = new Set(['pattern', 'marker', 'mask', 'clipPath', 'filter']
);  // drawn where an address names them
const HIDDEN = new Set(
    [...GRADIENTS, ...TARGETS, 'defs', 'symbol', 'style', 'script', 'title', 'desc', 'metadata']
);
const STYLED = /^(fill|stroke|mask|filter|clip-path|marker(-\w+)?)$/;
const CLASSES = /^\s*(\.[\w-]+[\s,]*)+$/;
// for an element as a whole: what is inside inherits the others
const ONCE = /^(href|mask|filter|clip-path)$/;

// What stands outside of comments, one that has no end among them.
const uncommented = (text) =>
    text.split('/*').map(
                        (part, at) => (at ? part.slice((`${part}*/`).indexOf('*/') + 2) : part)
    ).join(' ');

/** A text without the escapes of CSS. */
export const unescaped = (text) =>
    text.replace(
            /\\([0-9a-f]{1,6})\s?/gi, (_, code) => String.fromCharCode(parseInt(code, 16))
    ).replaceAll('\\', '');

const isLong = (text) => text.split(/[{;(\\]|\/\*/, MOST_DRAWN + 1).length >
    MOST_DRAWN;  // CSS with more in it than is looked at

// An address of a property: the id as it is written, and without its escapes.
const addressOf =
    (property, id) => [property, id.trim(), unescape(id.trim().replace(/[\t\n\r]/g, ''))];

// The addresses in plain CSS declarations.
function addressesIn(text) {
  return text.split(';').flatMap((one) => {
    const property = one.split(':', 1)[0].trim().toLowerCase();
    return Array.from(one.matchAll(/url\([\s"']*#([^"')]+)/gi), ([,
                                                                  id]) => addressOf(property, id));
  });
}

// The classes that a selector names, if it names nothing else, or '*'.
const classesOf = (selector) =>
    (CLASSES.test(selector) ? new Set(selector.match(/[\w-]+/g)) : ['*']);

// Lists of the addresses in the rules of style sheets by the classes that they are for, or '*' for
// any other selector.
function rulesOf(sheets) {
  const rules = new Map();
  const parts = unescaped(uncommented(sheets)).split(/([{}])/);
  for (let at = 0; at < parts.length; at += 2) {
    const found = addressesIn(
        parts[at + 1] === '{' ? parts[at].slice(0, parts[at].lastIndexOf(';') + 1) : parts[at]
    );
    const selector = parts[at - 1] === '{' ? parts[at - 2].split(';').at(-1) : '';
    for (const name of found.length ? classesOf(selector) : []) {
      rules.set(name, rules.get(name) ?? []).get(name).push(found);
    }
  }
  return rules;
}

// Lists of the addresses of an element, by its attributes and by rules for its classes; null for
// one with more in it than is looked at.
function* addressesOf(element, rules) {
  if (element.attributes.length > MOST_ATTRIBUTES) yield null;
  for (const {localName, value} of element.attributes) {
    if (isLong(value))
      yield null;
    else if (localName === 'href' && element.localName !== 'a' && value.trim()[0] === '#')
      yield [addressOf('href', value.trim().slice(1))];
    else if (localName === 'style' || STYLED.test(localName))
      yield addressesIn(
          unescaped(uncommented(localName === 'style' ? value : `${localName}:${value}`))
      );
  }
  for (const name of new Set(['*', ...(element.getAttribute('class') ?? '').split(/\s+/)]))
    yield* rules.get(name) ?? [];
}

// All elements, and by its id the first with each; null where there are more than are looked at.
function elementsOf(root) {
  const [all, ids] = [[root], new Map()];
  for (const element of all) {
    if (all.length > MOST_DRAWN) return null;
    if (element.id && !ids.has(element.id)) ids.set(element.id, element);
    for (const child of element.children) all.push(child);
  }
  return {all, ids};
}

// Which of all hold a `use`: the browser fills it with elements also where it draws none of them.
function holdersOf(all) {
  const holding = new Set();
  for (const one of [...all].reverse())
    if (one.localName === 'use' || [...one.children].some((child) => holding.has(child)))
      holding.add(one);
  return holding;
}

// Adds to the parts of an element those that its addresses name. Answers false where they are more
// than are looked at.
function addTargets(own, found, ids, work) {
  for (const addresses of found) {
    work.left -= 1 + (addresses?.length ?? work.left);
    if (work.left < 0) return false;
    for (const [property, id, plain] of addresses) {
      const target = ids.get(id) ?? ids.get(plain);
      if (target && !GRADIENTS.has(target.localName))
        (ONCE.test(property) ? own.plus : own.times).push(target);
    }
  }
  return true;
}

// All elements as Map to { plus, times }: the elements whose counts are added to its own, and those
// by whose counts it is multiplied. Null where there are more elements, or addresses, than are
// looked at.
function partsOf(root) {
  const {all, ids} = elementsOf(root) ?? {};
  if (!all) return null;
  const sheets =
      all.filter((one) => one.localName === 'style').map((one) => one.textContent).join('\n');
  if (isLong(sheets)) return null;
  const [rules, holding] = [rulesOf(sheets), holdersOf(all)];
  const partsAt = (element) => ({
    plus: [...element.children].filter((one) => holding.has(one) || !HIDDEN.has(one.localName)),
    times: [],
    inherited: []
  });
  const parts = new Map(all.map((element) => [element, partsAt(element)]));
  const work = {left: 50 * MOST_DRAWN};
  for (const element of all) {
    const own = parts.get(element);
    const names = (element.getAttribute('class') ?? '').length / 2;  // at most
    work.left -= own.inherited.length + names;
    if (work.left < 0 || !addTargets(own, addressesOf(element, rules), ids, work)) return null;
    const passed =
        own.times.length ? [...new Set([...own.inherited, ...own.times])] : own.inherited;
    for (const child of element.children) parts.get(child).inherited = passed;
    if (TARGETS.has(element.localName)) own.times = passed;
  }
  return parts;
}

/** How many elements the browser draws of an SVG element; Infinity where one is part of itself. */
export function drawnOf(root) {
  const parts = partsOf(root);
  if (!parts) return Infinity;
  const [counts, begun, waiting] = [new Map(), new Set(), [root]];
  const sum = (elements) => elements.reduce((total, one) => total + counts.get(one), 1);
  while (waiting.length) {
    const element = waiting.at(-1);
    const {plus, times} = parts.get(element);
    const missing =
        counts.has(element) ? [] : [...plus, ...times].filter((one) => !counts.has(one));
    if (missing.some((one) => begun.has(one))) return Infinity;
    begun.add(element);
    if (!missing.length) {
      if (!counts.has(element)) counts.set(element, sum(plus) * sum(times));
      waiting.pop();
    }
    for (const one of missing) waiting.push(one);
  }
  return counts.get(root);
}
