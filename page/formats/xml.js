// A small bounded reader of XML, for puzzle files: elements, attributes and texts alone. Nothing is
// fetched, no entity is declared, and no text is ever taken as HTML.

import {withoutSpace} from '../base/words.js';
import {FileFault} from '../document/limits.js';
import {phrase} from '../texts/phrase.js';

const MOST_XML_DEPTH = 32;
const MOST_XML_ELEMENTS = 200000;
const XML_NAME = /[A-Za-z_:][\w:.-]*/y;
const XML_SIGNS = {
  lt: '<',
  gt: '>',
  amp: '&',
  quot: '"',
  apos: '\'',
  copy: '\u00a9'
};

/**
 * A text with the five signs of XML, `&copy;` and numbers put in; an entity that is not known
 * stays as it stands.
 */
function plainText(text) {
  return text.replace(/&(#x0*[0-9a-fA-F]{1,6}|#0*[0-9]{1,7}|[A-Za-z]+);/g, (whole, name) => {
    if (name[0] !== '#') return Object.hasOwn(XML_SIGNS, name) ? XML_SIGNS[name] : whole;
    const point = name[1] === 'x' ? parseInt(name.slice(2), 16) : parseInt(name.slice(1), 10);
    return point > 0 && point <= 0x10ffff && (point < 0xd800 || point > 0xdfff) ?
        String.fromCodePoint(point) :
        whole;
  });
}

/**
 * A text as it stands in XML, between tags or in quotes. Signs that XML 1.0 does not have are left
 * out.
 */
export const xmlText = (text) =>
    String(text)
        // eslint-disable-next-line no-control-regex
        .replace(/[\u0000-\u0008\u000b\u000c\u000e-\u001f\ufffe\uffff]/g, '')
        .replace(
            /[&<>"]/g, (sign) => ({'&': '&amp;', '<': '&lt;', '>': '&gt;', '"': '&quot;'})[sign]
        );

class XmlReader {
  constructor(text) {
    this.text = text;
    this.at = text.startsWith('\ufeff') ? 1 : 0;
    this.elements = 0;
  }

  fault(what) {
    const line = this.text.slice(0, this.at).split('\n').length;
    return new FileFault(phrase('formats.xmlNotReadLine', {what, line}));
  }

  past(sign, what) {
    const end = this.text.indexOf(sign, this.at);
    if (end < 0) throw this.fault(phrase('formats.noEnd', {what}));
    const inside = this.text.slice(this.at, end);
    this.at = end + sign.length;
    return inside;
  }

  name() {
    XML_NAME.lastIndex = this.at;
    const found = XML_NAME.exec(this.text);
    if (!found) throw this.fault(phrase('formats.nameMissing'));
    this.at = XML_NAME.lastIndex;
    return found[0];
  }

  space() {
    while (this.at < this.text.length && ' \t\r\n'.includes(this.text[this.at])) this.at++;
  }

  // Attributes up to the end of a tag; answers whether the tag closes its element.
  attributes(element) {
    for (;;) {
      this.space();
      if (this.text.startsWith('/>', this.at)) {
        this.at += 2;
        return true;
      }
      if (this.text[this.at] === '>') {
        this.at++;
        return false;
      }
      const name = this.name();
      this.space();
      if (this.text[this.at] !== '=') throw this.fault(phrase('formats.attributeNoValue', {name}));
      this.at++;
      this.space();
      const quote = this.text[this.at];
      if (quote !== '"' && quote !== '\'')
        throw this.fault(phrase('formats.attributeNoQuotes', {name}));
      this.at++;
      element.attributes.set(
          name, plainText(this.past(quote, phrase('formats.value')).replace(/[\t\n]/g, ' '))
      );
    }
  }
}

/**
 * The outermost element of an XML text, as `{ name, attributes, children, text }`; children are
 * elements. As XML wants it, each line ends with a line feed, and one within an attribute counts
 * for a blank, as a tabulator does.
 */
export function readXml(source) {
  const text = source.replace(/\r\n?/g, '\n');
  const reader = new XmlReader(text);
  const top = {name: '', attributes: new Map(), children: [], text: ''};
  const open = [top];
  while (reader.at < text.length) {
    const inside = open.at(-1);
    if (text[reader.at] !== '<') {
      const end = text.indexOf('<', reader.at);
      const run = text.slice(reader.at, end < 0 ? text.length : end);
      reader.at += run.length;
      if (open.length > 1)
        inside.text += plainText(run);
      else if (withoutSpace(run))
        throw reader.fault(phrase('formats.textStandsOutsideAll'));
    } else
      readXmlTag(reader, open);
  }
  if (open.length > 1)
    throw reader.fault(phrase('formats.elementNotClosed', {name: open.at(-1).name}));
  if (top.children.length !== 1) throw reader.fault(phrase('formats.thereNotOneOutermost'));
  return top.children[0];
}

function readXmlTag(reader, open) {
  const {text} = reader;
  const inside = open.at(-1);
  const begins = (sign) => {
    if (!text.startsWith(sign, reader.at)) return false;
    reader.at += sign.length;
    return true;
  };
  if (begins('<!--'))
    reader.past('-->', phrase('formats.comment'));
  else if (begins('<![CDATA['))
    inside.text += reader.past(']]>', phrase('formats.cdataPart'));
  else if (begins('<?'))
    reader.past('?>', phrase('formats.instruction'));
  else if (begins('<!')) {
    // Behind a quote that is not closed, what looks like the end is none: no element begins there.
    const unquoted =
        reader.past('>', phrase('formats.declaration')).replace(/"[^"]*"|'[^']*'/g, '');
    if (/["'[]/.test(unquoted)) throw reader.fault(phrase('formats.declarationsOwnNotRead'));
  } else if (begins('</')) {
    const name = reader.name();
    reader.space();
    if (!begins('>') || open.length === 1 || inside.name !== name)
      throw reader.fault(phrase('formats.tagClosesNothing', {name}));
    open.pop();
  } else {
    reader.at++;
    const element = {name: reader.name(), attributes: new Map(), children: [], text: ''};
    if (++reader.elements > MOST_XML_ELEMENTS || open.length > MOST_XML_DEPTH)
      throw reader.fault(phrase('formats.thereTooManyElements'));
    inside.children.push(element);
    if (!reader.attributes(element)) open.push(element);
  }
}
