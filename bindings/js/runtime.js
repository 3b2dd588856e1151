// SPDX-FileCopyrightText: 2026 The Cellarcove authors
// SPDX-License-Identifier: MIT OR Apache-2.0
// Passes arguments to the exports for C, which are WebAssembly, and reads their results.
import * as rows from './table.js';
import {STATUSES, STRUCTS} from './table.js';
export {VERSION} from './table.js';

/** The exports for C, once they are loaded. A struct is passed by a pointer into `memory`, a result that is one first. */
export let exports;

/** Who made the WebAssembly: cargo, or Rattle of the proved sources, with addresses of 64 bits. */
export let BUILT_BY;

export const Status = /*#__PURE__*/ Object.freeze(/*#__PURE__*/ Object.fromEntries(/*#__PURE__*/ STATUSES.map(([name], number) => [name, number])));

/** A call has no result. Its `status` and its `code` say why. */
export class Refused extends RangeError {
  constructor(status, call, words) {
    const [code, reason] = STATUSES[status];
    super(`${call ? `${call}: ` : ''}${code}: ${words || reason}`);
    this.name = 'Refused';
    this.status = status;
    this.code = code;
  }
}

// ---- what an argument is called in an error

/** What a call knows of its arguments: its name, the parameter, the place in a list, the first refusal, or another reason. */
const reading = (call) => ({call, parameter: '', place: -1, status: 0, words: '', reason: ''});
const named = ({alias, parameter, place}) => place < 0 ? alias ?? parameter : `${parameter}[${place}]`;

/** A value as an error shows it: a text in quotes, an object with these parts. */
function shown(x, parts) {
  if (typeof x === 'string') return JSON.stringify(x.length > 60 ? `${x.slice(0, 60)}..` : x);
  if (Array.isArray(x)) return `[${x.slice(0, 4).map((item) => shown(item, parts)).join(', ')}${x.length > 4 ? ', ..' : ''}]`;
  if (typeof x !== 'object' || x === null) return typeof x === 'function' ? 'a function' : String(x);
  return parts?.every(({name}) => name in x) ? `{${parts.map(({name}) => `${name}: ${shown(x[name])}`).join(', ')}}` : `of type ${x.constructor?.name ?? 'object'}`;
}

const wrong = (seen, x, words) => new TypeError(`${seen.call}: ${named(seen)} is ${shown(x)}, ${words}`);

/** Keeps the first refusal. */
function refuse(seen, status, words) {
  if (seen.status === 0) [seen.status, seen.words] = [status, words];
}

// ---- fractions and dates

const MADE = Symbol('made'); // the last argument of a constructor, if a call has made the parts

const PLACES = {num: 2, year: 3}; // how many parts an array has

/** The parts of a value: of an object by their names, and of an array by their places. */
function parts(value, names, seen) {
  const isArray = Array.isArray(value), found = isArray ? value : names.map((name) => value?.[name]);
  if (isArray ? value.length !== PLACES[names[0]] : found.includes(undefined)) throw wrong(seen, value, `which has not the parts ${names.join(', ')}`);
  return found;
}

export class Fraction {
  constructor(num, den, made) {
    if (made !== MADE) ({num, den} = ofParts('Fraction', rows.fractionNew, [num, den]));
    this.num = num;
    this.den = den;
    Object.freeze(this);
  }

  static from(given) {
    return ofParts('Fraction.from', rows.fractionAdd, [given, 0n], 'value');
  }

  toString() {
    return this.den === 1n ? `${this.num}` : `${this.num}/${this.den}`;
  }

  toJSON() {
    return this.toString();
  }

  [Symbol.toPrimitive](hint) {
    if (hint === 'string') return this.toString();
    throw new TypeError(hint === 'number' ? 'a fraction has no < and no -: write fractionCmp(a, b) or fractionSub(a, b)'
      : 'a fraction has no + and no ==: write fractionAdd(a, b) or fractionCmp(a, b), or `${fraction}` for its text');
  }

  valueOf() {
    return this[Symbol.toPrimitive]('number');
  }
}

/** A decimal number, of which `part` is the number that the digits after the point write: 5 of 0.05. */
export class Decimal {
  #places;

  constructor(isNegative, whole, part, places, made) {
    if (made !== MADE) throw new TypeError('fractionToDecimal makes decimal numbers');
    this.isNegative = isNegative;
    this.whole = whole;
    this.part = part;
    this.#places = Number(places);
    Object.freeze(this);
  }

  get places() {
    return this.#places;
  }

  toString() {
    const digits = this.places > 0 ? `.${`${this.part}`.padStart(this.places, '0')}` : '';
    return `${this.isNegative ? '-' : ''}${this.whole}${digits}`;
  }

  toJSON() {
    return this.toString();
  }

  [Symbol.toPrimitive](hint) { // or `<` and `+` would take texts
    if (hint === 'string') return this.toString();
    throw new TypeError('a decimal number is a text: compute with fractions, and write `${decimal}` for its text');
  }

  valueOf() {
    return this[Symbol.toPrimitive]('number');
  }
}

export class PlainDate {
  #exists = true; // its parts are those of a date

  constructor(year, month, day, made) {
    if (made !== MADE) ({year, month, day} = dateOf('PlainDate', [year, month, day], 'date'));
    this.year = year;
    this.month = month;
    this.day = day;
    Object.freeze(this);
  }

  static from(given) {
    return #exists in Object(given) ? given : dateOf('PlainDate.from', given, 'value');
  }

  /** -1, 0 or 1, as one date is before, the same as or after another. */
  static compare(one, other, name = 'PlainDate.compare') {
    const a = #exists in Object(one) ? one : dateOf(name, one, 'one'), b = #exists in Object(other) ? other : dateOf(name, other, 'other');
    return a.year < b.year ? -1 : a.year > b.year ? 1 : Math.sign(a.month - b.month || a.day - b.day);
  }

  equals(other) {
    return PlainDate.compare(this, other, 'PlainDate.equals') === 0;
  }

  toString() {
    const digits = `${this.year < 0n ? -this.year : this.year}`.padStart(4, '0');
    const sign = this.year < 0n ? '-' : this.year > 9999n ? '+' : '';
    return `${sign}${digits}-${`${this.month}`.padStart(2, '0')}-${`${this.day}`.padStart(2, '0')}`;
  }

  toJSON() {
    return this.toString();
  }

  [Symbol.toPrimitive](hint) { // as those of Temporal
    if (hint === 'string') return this.toString();
    throw new TypeError(hint === 'number' ? 'a date has no < and no -: write PlainDate.compare(a, b) or daysBetween(a, b)'
      : 'a date has no + and no ==: write plusDays(date, days) or date.equals(other), or `${date}` for its text');
  }

  valueOf() {
    return this[Symbol.toPrimitive]('number');
  }
}

/** The date of a parameter of another call. */
const dateOf = (name, given, parameter) => ofParts(name, rows.plusMonths, [given, 0n], parameter);

/** The result of a call, by the name of another and of its parameter. */
function ofParts(name, row, given, parameter) {
  const plan = planOf(row);
  return hasShort(plan, given) ? value : resultOf(name, plan, given, parameter);
}

const NO_PARTS = {Fraction: {num: 0n, den: 1n}, Date: {year: 0n, month: 1, day: 1}}; // in the place of those of a text that is refused

/** The fraction or date of an argument, as its parts. */
function whole(kind, value, seen) {
  if (typeof value === 'string' && kind in NO_PARTS) return ofText(kind, value, seen);
  if (kind === 'Fraction' && (typeof value !== 'object' || value === null)) return {num: value, den: 1n};
  if (kind === 'Date' && (value?.calendarId ?? 'iso8601') !== 'iso8601') throw wrong(seen, value, `whose calendar is ${shown(value.calendarId)}: write withCalendar('iso8601')`);
  return value;
}

/** The parts of a text. */
function ofText(kind, text, seen) {
  const plan = planOf(kind === 'Date' ? rows.dateFromText : rowOfFraction(text)), status = run(plan.forms[0], [ENCODER.encode(text)]);
  if (status === 0) return value;
  refuseText(seen, plan, status, text, ' or -0.75');
  return NO_PARTS[kind];
}

/** The row of the call that reads the text of a fraction. */
const rowOfFraction = (text) => text.includes('.') ? rows.fractionFromDecimal : rows.fractionFromText;

/** Refuses a text that a call has read. */
function refuseText(seen, plan, status, text, also = '') {
  const what = {[Status.NO_DATE]: 'date such as 2024-02-29', [Status.OUTSIDE]: plan === planOf(rows.fractionFromDecimal) ? notDecimal(text) : `fraction such as -3/4${also}`}[status];
  refuse(seen, status, `${named(seen)} is ${shown(text)}${what ? `, which is no ${what}` : `: ${STATUSES[status][1]}`}`);
}

/** Why a text is no decimal number. */
function notDecimal(text) {
  const reasons = [[/^-?\d+(\.\d*)?e[+-]?\d+$/i, 'an exponent'], [/\d[,\s'_’]+\d/, 'a group separator or a decimal comma'], [/\p{Sc}|\p{L}/u, 'a currency or another word'],
    [/^-?\d+\.\d{19,}$/, 'a digit that is not 0 after the 18th place']];
  const reason = reasons.find(([form]) => form.test(text))?.[1];
  return `decimal number such as -19.99${reason ? `: it has ${reason}` : ''}`;
}

const CLASSES = {
  Fraction: (num, den) => () => new Fraction(num(), den(), MADE),
  Date: (year, month, day) => () => new PlainDate(year(), month(), day(), MADE),
  Decimal: (isNegative, whole, part) => (_returned, places) => new Decimal(isNegative(), whole(), part(), places, MADE), // its second argument
};

// ---- memory

const SIZES = {i64: 8, u64: 8, n53: 8, i32: 4, u32: 4, u16: 2, u8: 1, bool: 1}; // n53: a number of 64 bits that is a safe integer
const up = (at, align) => Math.ceil(at / align) * align;

/** The size of a type, and its numbers. */
function layout(kind) {
  if (SIZES[kind]) return {size: SIZES[kind], align: SIZES[kind], leaves: [{name: 'value', kind, at: 0}]};
  const leaves = [];
  let end = 0, align = 1;
  for (const [name, inner] of STRUCTS[kind]) {
    const part = layout(inner), at = up(end, part.align);
    leaves.push(...part.leaves.map((leaf) => ({name: inner in SIZES ? name : leaf.name, kind: leaf.kind, at: at + leaf.at})));
    [end, align] = [at + part.size, Math.max(align, part.align)];
  }
  return {size: up(end, align), align, leaves};
}

// A call has the memory behind the program's own: a place for the result, one for each parameter, and room for lists.
// A `var` is faster to read than a `let`.
const PLACE = 64, TEXT = 64, ENCODER = /*#__PURE__*/ new TextEncoder();
var RESULT, ROOM, RESULT_WORD, ROOM_WORD, WORDS, view, I64, U64, I32, U32, U8;

/** An address or a length, as the module takes it. */
let word;

/** Grows the memory to end behind a place. */
function reach(end) {
  const lacking = end - exports.memory.buffer.byteLength;
  const pages = Math.ceil(lacking / 65536);
  if (pages > 0) try { exports.memory.grow(word(pages)); } catch { exports.memory.grow(pages); } // Node 20 takes no BigInt here
  if (view.buffer !== exports.memory.buffer) see(exports.memory.buffer);
}

function see(buffer) {
  view = new DataView(buffer);
  [I64, U64, I32, U32, U8] = [BigInt64Array, BigUint64Array, Int32Array, Uint32Array, Uint8Array].map((kind) => new kind(buffer));
}

/** Begins with an instance of the WebAssembly. The first one stays. */
export function start(instance) {
  if (exports) return;
  const found = instance.exports, base = Number(found.__heap_base?.value ?? found.memory.buffer.byteLength);
  BUILT_BY = found.cellarcove_built_by ? 'cargo' : 'rattle';
  word = BUILT_BY === 'cargo' ? (x) => x : BigInt;
  RESULT = up(base, PLACE);
  ROOM = RESULT + 16 * PLACE;
  [RESULT_WORD, ROOM_WORD] = [RESULT, ROOM].map(word);
  WORDS = Array.from({length: 6}, (_, place) => word(RESULT + PLACE * place));
  see(found.memory.buffer);
  exports = found;
  try {
    reach(ROOM + TEXT);
    look();
  } catch (error) {
    exports = undefined;
    plans.clear(); // they have its calls
    throw error;
  }
}

const IS_LITTLE = /*#__PURE__*/ new Uint8Array(/*#__PURE__*/ Uint16Array.of(1).buffer)[0] === 1; // as WebAssembly is: arrays can lie over its memory

// A small number has its bits first, so that it is read where one of 64 bits lies.
const GET = {
  i64: (at) => view.getBigInt64(at, true), u64: (at) => view.getBigUint64(at, true), i32: (at) => view.getInt32(at, true),
  u32: (at) => view.getUint32(at, true), u16: (at) => view.getUint16(at, true), u8: (at) => view.getUint8(at), bool: (at) => view.getUint8(at) !== 0,
  n53: (at) => view.getUint32(at, true) + 2 ** 32 * view.getUint32(at + 4, true),
};
const SET = {
  i64: (at, x) => view.setBigInt64(at, x, true), u64: (at, x) => view.setBigUint64(at, x, true), i32: (at, x) => view.setInt32(at, x, true),
  u32: (at, x) => view.setUint32(at, x, true), u16: (at, x) => view.setUint16(at, x, true), u8: (at, x) => view.setUint8(at, x),
};
/** A number that a call returns without memory. */
const RETURNED = {i64: (x) => x, u64: (x) => BigInt.asUintN(64, x), i32: (x) => x, u32: (x) => x >>> 0, u16: (x) => x, u8: (x) => x, bool: (x) => x !== 0};

// ---- numbers

/** An integer as a `BigInt`. */
function integer(x, seen) {
  if (typeof x === 'bigint') return x;
  if (Number.isSafeInteger(x)) return BigInt(x);
  throw wrong(seen, x, typeof x === 'number' ? 'which is no safe integer' : 'which is neither a BigInt nor a safe integer');
}

const isInt = (x) => typeof x === 'number' && (x | 0) === x;
const isSigned = (x) => typeof x === 'bigint' && BigInt.asIntN(64, x) === x, isUnsigned = (x) => BigInt.asUintN(64, x) === x;

/** A number of a type. If the type lacks it, `seen` gets the status. The call itself refuses the largest month, week or day. */
function fitting(x, kind, seen) {
  const bits = 8 * SIZES[kind], big = integer(x, seen);
  const inside = kind[0] === 'i' ? BigInt.asIntN(bits, big) : BigInt.asUintN(bits, big);
  if (inside !== big && bits > 16) {
    refuse(seen, big < 0n && kind[0] === 'u' ? Status.OUTSIDE : Status.NOT_FITTING, `${named(seen)} is ${big}, which is out of range`);
  }
  return bits === 64 ? big : inside === big ? Number(big) : 2 ** bits - 1;
}

// ---- calls

/** What reads the number of a place, or of an array. */
function readerAt(kind, at) {
  const get = GET[kind], index = at / SIZES[kind];
  return IS_LITTLE && {i64: () => I64[index], u64: () => U64[index], i32: () => I32[index], u8: () => U8[index]}[kind] || (() => get(at));
}

/** What reads the result of a form. */
function readerOf(result, leaves, inMemory) {
  if (!inMemory) return leaves[0].kind === result ? null : Number;
  const made = CLASSES[result.replace('Answer', '')], [a, b, c] = leaves.map(({kind, at}) => readerAt(kind, RESULT + at));
  if (made) return made(a, b, c);
  if (leaves.length === 1) return a;
  const [first, second, third] = leaves.map(({name}) => name);
  const model = Object.fromEntries(leaves.map(({name, kind}) => [name, GET[kind](RESULT)])); // a copy is faster than an object of names
  return () => {
    const found = {...model};
    found[first] = a();
    found[second] = b();
    if (third) found[third] = c();
    return first === 'first' ? Object.freeze(found) : found; // solutions
  };
}

/** A form of a call: its export, its parameters, and what reads its result. */
function formOf([symbol, parameters, result, small]) {
  const raw = exports[`cellarcove_${symbol}`], isStruct = result in STRUCTS, whole = layout(result);
  if (!raw) throw new Error(`cellarcove.wasm has no ${symbol}: it is of another version`);
  const kinds = small?.split(' ') ?? [], leaves = whole.leaves.filter(({name}) => name !== 'status').map((leaf, k) => ({...leaf, kind: kinds[k] ?? leaf.kind}));
  const returned = RETURNED[result], read = readerOf(result, leaves, isStruct);
  return {
    raw, leaves, result, inMemory: isStruct, hasStatus: isStruct && whole.leaves.length > leaves.length,
    read: isStruct ? read : read ? (x) => Number(returned(x)) : returned,
    parameters: parameters.split(' ').map((parameter) => {
      const [name, kind] = parameter.split(':'), item = /\[(\w+)\]$/.exec(kind)?.[1];
      return {name, kind, item, isPair: /^.64[CS]/.test(kind), isWritten: kind.startsWith('&mut'), isText: item === 'u8', ...layout(item ?? kind)};
    }),
  };
}

/** Writes the items of a list into memory, and returns its place and length. */
function lowerList({size, leaves, isText}, items, at) {
  reach(at + size * items.length + 8);
  if (isText) new Uint8Array(exports.memory.buffer, at, items.length).set(items);
  else items.forEach((parts, place) => leaves.forEach(({kind, at: inner}, k) => SET[kind](at + size * place + inner, parts[k])));
  return [at, items.length];
}

/** The numbers of a written list. */
function listAt({at, kind, length}) {
  const get = GET[kind], found = [];
  for (let place = 0; place < length; place++) found.push(get(at + 8 * place));
  return found;
}

/** A call of a form with arguments that fit it: it returns the status, and `value` has the result. */
function run({raw, parameters, inMemory, hasStatus, read}, given) {
  const words = inMemory ? [RESULT_WORD] : [];
  let room = ROOM, written = null;
  turns++;
  parameters.forEach((parameter, place) => {
    const argument = given[place];
    if (parameter.item) {
      const list = parameter.isWritten ? [room, argument] : lowerList(parameter, argument, room);
      room = up(room + parameter.size * list[1], 8);
      if (parameter.isWritten) written = {at: list[0], kind: parameter.item, length: argument};
      words.push(...list.map(word));
    } else if (parameter.isPair) words.push(...argument);
    else if (parameter.kind in STRUCTS) {
      const at = RESULT + PLACE * (place + 1);
      parameter.leaves.forEach((leaf, k) => SET[leaf.kind](at + leaf.at, argument[k]));
      words.push(word(at));
    } else words.push(argument);
  });
  if (written) reach(room);
  const returned = raw(...words);
  if (written) {
    value = returned === 0 ? listAt(written) : undefined;
    return returned;
  }
  const status = hasStatus ? view.getUint32(RESULT, true) : 0;
  value = status !== 0 ? undefined : read(returned, given[1]);
  return status;
}
var value;
var turns = 0; // how often a call has written arguments

/** The name of a parameter. A written list is a count. */
const nameOf = ({name, isWritten}) => isWritten ? 'count' : name;

/** The arguments of a call, as numbers, arrays of parts, and lists of these, and the numbers that choose the form. */
function taken({forms: [, other], parameters, hasWritten}, given, seen) {
  if (given.length !== parameters.length) throw new TypeError(`${seen.call} takes ${parameters.map(nameOf).join(', ')}`);
  const wide = [];
  const number = (x, kind, otherKind) => {
    if (kind === otherKind) return fitting(x, kind, seen);
    const big = integer(x, seen);
    if (!isSigned(big) && !isUnsigned(big)) refuse(seen, Status.NOT_FITTING, `${named(seen)} is ${big}, which is out of range`);
    wide.push(big);
    return big;
  };
  const struct = (value, {kind, item, leaves}, place) => parts(whole(item ?? kind, value, seen), leaves.map(({name}) => name), seen)
    .map((part, k) => number(part, leaves[k].kind, other?.parameters[place].leaves[k].kind ?? leaves[k].kind));
  const list = (items, itemOf) => {
    if (typeof items?.[Symbol.iterator] !== 'function' || typeof items === 'string') throw wrong(seen, items, 'which is no list');
    return [...items].map((item, k) => {
      seen.place = k;
      return itemOf(item);
    });
  };
  const found = parameters.map((parameter, place) => {
    const argument = given[place];
    [seen.parameter, seen.place] = [nameOf(parameter), -1];
    if (parameter.isWritten) { // as many of the numbers below the argument before it
      const count = fitting(argument, 'u64', seen);
      if (count > integer(given[place - 1], seen)) refuse(seen, Status.OUTSIDE, '');
      return Number(count);
    }
    if (parameter.isText) {
      if (typeof argument !== 'string') throw wrong(seen, argument, 'which is no text');
      return ENCODER.encode(argument);
    }
    if (parameter.item in SIZES) return list(argument, (x) => [number(x, parameter.item, other?.parameters[place].item ?? parameter.item)]);
    if (parameter.item) return list(argument, (x) => struct(x, parameter, place));
    return parameter.kind in STRUCTS ? struct(argument, parameter, place) : number(argument, parameter.kind, other?.parameters[place].kind ?? parameter.kind);
  });
  if (hasWritten) found.push(found.find(Array.isArray).length);
  return [found, wide];
}

/** The status of a call, whose result is in `value`: that of the signed form, or of the unsigned one if only that fits. */
function statusOf(plan, given, seen) {
  const [found, wide] = taken(plan, given, seen), [signed, unsigned] = plan.forms;
  value = undefined;
  if (seen.status !== 0) return seen.status;
  if (!unsigned) return run(signed, found);
  const areSigned = wide.every(isSigned), areUnsigned = wide.every(isUnsigned);
  if (!areSigned && !areUnsigned) seen.reason = 'one number is negative, and another is 2^63 or more';
  const status = areSigned ? run(signed, found) : Status.NOT_FITTING;
  return status === Status.NOT_FITTING && areUnsigned ? run(unsigned, found) : status;
}

// ---- the short ways, for usual arguments: without a result a call is made again, for its error

/** How a short way takes a parameter: below FRACTION as a number. */
const SHORT = {i64: 0, u64: 1, i32: 2, u32: 3, u16: 4, u8: 5, Fraction: 6, Date: 7}, FRACTION = 6, LIST = 8, BYTES = 10;
const MOST = [0, 0, 2 ** 31 - 1, 2 ** 32 - 1, 2 ** 16 - 1, 2 ** 8 - 1];
const shortKind = ({kind, item}) => item ? {i64: LIST, u64: LIST + 1, u8: BYTES}[item] : SHORT[kind];

const plans = new Map();

/** The forms of a call. Its short way takes a plan and `count` arguments, and returns whether there is a result, in `value`. */
function planOf(row) {
  const found = plans.get(row);
  if (found) return found;
  if (!exports) throw new Error('cellarcove.wasm is not loaded yet: await ready before the first call');
  const forms = row.map(formOf), [{parameters: all, raw, inMemory, hasStatus, read}] = forms, hasWritten = all.filter(({item}) => item).length === 2;
  const parameters = all.filter(({isWritten}) => !isWritten || !hasWritten), hasPairs = all.some(({isPair}) => isPair), kinds = parameters.flatMap((it) => it.isPair ? it.leaves.map(shortKind) : shortKind(it));
  const [{kind, at}, other] = forms[0].leaves;
  const made = {
    one: inMemory && !other ? kind : '', index: (RESULT + at) / SIZES[kind], // of a result that is one number
    forms, hasWritten, parameters, kinds, raw, inMemory, hasStatus, read, takesArrays: all.every(({item}) => !item), written: hasWritten ? all.at(-1).item : null,
    way: kinds[0] >= BYTES ? takesText : kinds.some((kind) => kind >= LIST) ? takesList : hasPairs ? takesPairs : kinds.length > 2 ? takesMore : kinds[0] === FRACTION && kinds[1] === FRACTION ? takesFractions : takesFew,
    count: IS_LITTLE && !kinds.includes(undefined) && parameters.every(({isWritten}) => !isWritten) ? parameters.length : -1,
  };
  plans.set(row, made);
  return made;
}

/** A number of a kind, or undefined if it does not fit. */
function numberOf(x, kind) {
  if (kind > 1) return Number.isInteger(x) && x <= MOST[kind] && (kind === 2 ? x >= -(2 ** 31) : x >= 0) ? x : undefined;
  if (typeof x === 'number') return Number.isSafeInteger(x) && (kind === 0 || x >= 0) ? BigInt(x) : undefined;
  return typeof x === 'bigint' && (kind === 0 ? isSigned(x) : isUnsigned(x)) ? x : undefined;
}

/** Whether a signed number is now at a place of the words. */
function stores(x, at) {
  if (typeof x === 'number') {
    const low = x | 0;
    I32[2 * at] = low;
    I32[2 * at + 1] = low === x ? low >> 31 : Math.floor(x / 2 ** 32);
    return low === x || Number.isSafeInteger(x);
  }
  if (typeof x !== 'bigint') return false;
  I64[at] = x;
  return I64[at] === x;
}

/** Whether the call of a text has a result in memory: that of a short text that is right. */
function parses({raw}, text) {
  if (typeof text !== 'string' || text.length > TEXT) return false;
  const {length} = text;
  for (let k = 0; k < length; k++) {
    const letter = text.charCodeAt(k);
    if (letter > 127) return false;
    U8[ROOM + k] = letter;
  }
  raw(RESULT_WORD, ROOM_WORD, word(length));
  return U32[RESULT / 4] === 0;
}

/** The same, with the parts of the result at a place. */
function storesText(row, text, at) {
  const plan = planOf(row), from = (RESULT + plan.forms[0].leaves[0].at) / 8;
  if (!parses(plan, text)) return false;
  I64[at] = I64[from];
  I64[at + 1] = I64[from + 1]; // the denominator, or the month and the day
  return true;
}

/** Whether the parts of a fraction are now at a place. */
function storesFraction(x, at) {
  if (typeof x === 'string') return storesText(rowOfFraction(x), x, at);
  if (typeof x !== 'object' || x === null) return stores(x, at) && stores(1, at + 1);
  if (Array.isArray(x)) return x.length === 2 && stores(x[0], at) && stores(x[1], at + 1);
  const {num, den} = x;
  return stores(num, at) && stores(den, at + 1);
}

/** Whether the parts of a date are now at a place. */
function storesDate(x, at) {
  if (typeof x === 'string') return storesText(rows.dateFromText, x, at);
  if (typeof x !== 'object' || x === null) return false;
  const isArray = Array.isArray(x);
  if (isArray ? x.length !== 3 : (x.calendarId ?? 'iso8601') !== 'iso8601') return false;
  const year = isArray ? x[0] : x.year, month = isArray ? x[1] : x.month, day = isArray ? x[2] : x.day;
  if (!stores(year, at) || typeof month !== 'number' || typeof day !== 'number') return false;
  U8[8 * at + 8] = month;
  U8[8 * at + 9] = day;
  return U8[8 * at + 8] === month && U8[8 * at + 9] === day;
}

/** Whether the numbers of a list are now behind the places. */
function storesList(items, isSigned) {
  if (!Array.isArray(items) && !(items instanceof BigInt64Array) && !(items instanceof BigUint64Array)) return false;
  const {length} = items, at = ROOM / 8;
  if (ROOM + 16 * length > U8.length) reach(ROOM + 16 * length); // with as many numbers that the call may write
  for (let k = 0; k < length; k++) {
    const x = isSigned ? items[k] : numberOf(items[k], 1);
    if (isSigned ? !stores(x, at + k) : x === undefined) return false;
    if (!isSigned) U64[at + k] = x;
  }
  return items.length === length;
}

/** The word of an argument: a number, or where its parts lie now. It is undefined if the short way does not take it. */
function wordOf(x, kind, place) {
  if (kind < FRACTION) return numberOf(x, kind);
  const at = (RESULT + PLACE * place) / 8;
  return (kind === FRACTION ? storesFraction(x, at) : storesDate(x, at)) ? WORDS[place] : undefined;
}

/** Whether a call that has returned has a result. */
function hasResult(plan, returned, second) {
  if (plan.hasStatus && U32[RESULT >> 2] !== 0) return false;
  value = plan.one === 'i64' ? I64[plan.index] : plan.one === 'i32' ? I32[plan.index] : plan.read(returned, second);
  return true;
}

// An export leaves the words beyond its parameters. There is no result if reading an argument has made another call.
function takesFew(plan, a, b) { // one or two
  const {kinds, raw} = plan, turn = ++turns, v = wordOf(a, kinds[0], 1), w = kinds.length < 2 ? 0n : wordOf(b, kinds[1], 2);
  return v !== undefined && w !== undefined && turn === turns && hasResult(plan, plan.inMemory ? raw(RESULT_WORD, v, w) : raw(v, w), b);
}

function takesMore(plan, a, b, c, d, e) { // three to five
  const {kinds, raw} = plan, turn = ++turns, v = wordOf(a, kinds[0], 1), w = wordOf(b, kinds[1], 2), x = wordOf(c, kinds[2], 3);
  const y = kinds.length < 4 ? 0n : wordOf(d, kinds[3], 4), z = kinds.length < 5 ? 0n : wordOf(e, kinds[4], 5);
  if (v === undefined || w === undefined || x === undefined || y === undefined || z === undefined || turn !== turns) return false;
  return hasResult(plan, plan.inMemory ? raw(RESULT_WORD, v, w, x, y, z) : raw(v, w, x, y, z));
}

/** That of congruences or schedules. */
function takesPairs(plan, ...given) {
  return takesMore(plan, ...plan.parameters.flatMap(({isPair, leaves}, k) => isPair ? leaves.map(({name}) => given[k]?.[name]) : given[k]));
}

/** That of two fractions. */
function takesFractions(plan, a, b) {
  if (typeof a !== 'object' || a === null || typeof b !== 'object' || b === null) return takesFew(plan, a, b);
  const turn = ++turns, isArray = Array.isArray(a), isArray2 = Array.isArray(b), at = RESULT + PLACE >> 3, at2 = at + PLACE / 8, ints = I32;
  if (isArray && a.length !== 2 || isArray2 && b.length !== 2) return false;
  const num = isArray ? a[0] : a.num, den = isArray ? a[1] : a.den, num2 = isArray2 ? b[0] : b.num, den2 = isArray2 ? b[1] : b.den;
  if (isInt(num) && isInt(den) && isInt(num2) && isInt(den2)) {
    const k = 2 * at, m = 2 * at2; // a function for these is slower
    ints[k] = num;
    ints[k + 1] = num >> 31;
    ints[k + 2] = den;
    ints[k + 3] = den >> 31;
    ints[m] = num2;
    ints[m + 1] = num2 >> 31;
    ints[m + 2] = den2;
    ints[m + 3] = den2 >> 31;
  } else if (isSigned(num) && isSigned(den) && isSigned(num2) && isSigned(den2)) {
    I64[at] = num;
    I64[at + 1] = den;
    I64[at2] = num2;
    I64[at2 + 1] = den2;
  } else if (!stores(num, at) || !stores(den, at + 1) || !stores(num2, at2) || !stores(den2, at2 + 1)) return false;
  if (turn !== turns) return false;
  plan.raw(RESULT_WORD, WORDS[1], WORDS[2]);
  if (ints[RESULT >> 2] !== 0) return false;
  value = plan.one === 'i32' ? ints[plan.index] : plan.read();
  return true;
}

function takesText(plan, text) {
  turns++;
  return parses(plan, text) && hasResult(plan);
}

/** That of a list: before a number, alone, or behind one if the call writes another list. */
function takesList(plan, a, b) {
  const {kinds, raw, written} = plan, turn = ++turns, items = written ? b : a, place = written ? 0 : 1;
  const number = kinds.length === 1 ? 0n : numberOf(written ? a : b, kinds[place]);
  if (number === undefined || !storesList(items, kinds[1 - place] === LIST) || turn !== turns) return false;
  const {length} = items, at = ROOM + 8 * length;
  if (!written) return hasResult(plan, raw(RESULT_WORD, ROOM_WORD, word(length), number));
  if (raw(number, ROOM_WORD, word(length), word(at), word(length)) !== 0) return false;
  value = listAt({at, kind: written, length});
  return true;
}

const hasShort = (plan, given) => given.length === plan.count && plan.way(plan, given[0], given[1], given[2], given[3], given[4]);

/** The result of a plan, by the name of a call. */
function resultOf(name, plan, given, alias) {
  const seen = {...reading(name), alias}, status = statusOf(plan, given, seen);
  if (status === 0) return value;
  if (plan.kinds[0] === BYTES) refuseText(seen, plan, status, given[0]);
  throw new Refused(status, name, seen.words || `${argumentsOf(seen, plan, given)}: ${seen.reason || STATUSES[status][1]}`);
}

/** The arguments by their names. A call of another name has one. */
const argumentsOf = ({alias}, {parameters}, given) => (alias ? parameters.slice(0, 1) : parameters)
  .map((it, place) => `${alias ?? nameOf(it)} is ${shown(given[place], it.leaves)}`).join(', ');

/** The plan of a call and its arguments. Any count of numbers is a list, but for two of a call that has two. */
function listed(row, many, given) {
  if (!many || row !== many && given.length === 2) return [planOf(row), given];
  return [planOf(many), given.length === 1 && typeof given[0] === 'object' && given[0] !== null ? given : [given]];
}

/** A call that the short way has not taken. */
function slowly(name, row, many, ...given) {
  const [plan, taken] = listed(row, many, given);
  if (plan.takesArrays && taken.some((x, place) => hasColumns(x, plan.parameters[place]))) return ofArrays(name, plan, taken);
  return many && hasShort(plan, taken) ? value : resultOf(name, plan, taken);
}

/** The same without exceptions. */
function attemptSlowly(name, row, many, ...given) {
  const [plan, taken] = listed(row, many, given), status = many && hasShort(plan, taken) ? 0 : statusOf(plan, taken, reading(name));
  return {status, value};
}

/** The function of a call, which throws if there is no result. One of any count of numbers has the row of a list too. */
export function call(name, row, many) {
  let plan = null;
  return (...given) => {
    plan ??= planOf(row);
    return hasShort(plan, given) ? value : slowly(name, row, many, ...given);
  };
}

/** The form of a call without exceptions. */
export function attempt(name, row, many) {
  let plan = null;
  return (...given) => {
    plan ??= planOf(row);
    return hasShort(plan, given) ? {status: 0, value} : attemptSlowly(name, row, many, ...given);
  };
}

// ---- arrays

const ARRAYS = {i64: BigInt64Array, u64: BigUint64Array, n53: Float64Array, i32: Int32Array, u32: Uint32Array, u16: Uint16Array, u8: Uint8Array, bool: Uint8Array};

/** Whether an argument has an array in the place of a number that the call reads. */
function hasColumns(x, parameter) {
  if (typeof x !== 'object' || x === null || !parameter) return false;
  if (!(parameter.kind in STRUCTS)) return ArrayBuffer.isView(x);
  return parameter.leaves.some(({name}, place) => ArrayBuffer.isView(Array.isArray(x) ? x[place] : x[name]));
}

/** The form of a call of arrays: that of their items, or else that which the numbers fit. */
function formOfArrays([form, other], cells, seen) {
  if (!other) return form;
  const wide = cells.filter((cell) => cell.kind !== cell.otherKind), arrays = wide.filter(({given}) => ArrayBuffer.isView(given));
  const isOf = (kind) => arrays.every(({given}) => given instanceof ARRAYS[kind]);
  if (!isOf('i64') && !isOf('u64')) throw new TypeError(`${seen.call}: the items of the arrays have different types, or are no integers of 64 bits`);
  if (arrays.length > 0) return isOf('i64') ? form : other;
  return wide.every(({given, parameter}) => isSigned(integer(given, {...seen, parameter}))) ? form : other;
}

/** The cells of the arguments: an array or a number, and its type in either form. */
function cellsOf([form, other], given, seen) {
  return form.parameters.flatMap(({name, kind, leaves}, place) => {
    seen.parameter = name;
    const names = leaves.map(({name}) => name), values = kind in STRUCTS ? parts(whole(kind, given[place], seen), names, seen) : [given[place]];
    return values.map((value, k) => ({given: value, parameter: name, kind: leaves[k].kind, otherKind: (other ?? form).parameters[place].leaves[k].kind}));
  });
}

function column({given, parameter}, kind, length, seen) {
  seen.parameter = parameter;
  if (ArrayBuffer.isView(given)) {
    if (!(given instanceof ARRAYS[kind])) throw wrong(seen, given, `and is to be a ${ARRAYS[kind].name}`);
    if (given.length !== length) throw new TypeError(`${seen.call}: an array has ${given.length} items, and another ${length}`);
    return given;
  }
  const x = fitting(given, kind, seen);
  return new ARRAYS[kind](length).fill(x);
}

function ofArrays(call, {forms}, given) {
  const seen = reading(call);
  if (given.length !== forms[0].parameters.length) throw new TypeError(`${call} takes ${forms[0].parameters.map(nameOf).join(', ')}`);
  const cells = cellsOf(forms, given, seen), form = formOfArrays(forms, cells, seen), {length} = cells.find((cell) => ArrayBuffer.isView(cell.given)).given;
  const columns = cells.map((cell) => column(cell, form === forms[0] ? cell.kind : cell.otherKind, length, seen));
  if (seen.status !== 0) throw new Refused(seen.status, call, seen.words);
  const outputs = form.leaves.map(({kind}) => new ARRAYS[kind](length)), status = new Uint8Array(length);
  fill(form, columns, outputs, status);
  const names = form.leaves.length === 1 ? ['value'] : form.leaves.map(({name}) => name);
  if (names.length === 1 && !form.hasStatus) return outputs[0];
  return Object.fromEntries([...names.map((it, k) => [it, outputs[k]]), ...(form.hasStatus ? [['status', status]] : [])]);
}

/** Calls a form for the items of the columns. */
function fill({raw, parameters, leaves, inMemory, hasStatus, result}, columns, outputs, status) {
  turns++;
  const {length} = status, [a, b, c] = columns, [first, second] = outputs;
  const [x, y] = leaves.map(({kind, at}) => [new ARRAYS[kind](exports.memory.buffer), (RESULT + at) / SIZES[kind]]);
  const isPlain = IS_LITTLE && inMemory && hasStatus && parameters.every(({kind}) => kind in SIZES) && leaves.length < 3 && columns.length < 4 && leaves.every(({kind}) => kind !== 'n53');
  const store = (i) => {
    status[i] = view.getUint8(RESULT);
    first[i] = x[0][x[1]];
    if (second) second[i] = y[0][y[1]];
  };
  if (isPlain && columns.length === 1) for (let i = 0; i < length; i++) raw(RESULT_WORD, a[i]), store(i);
  else if (isPlain && columns.length === 2) for (let i = 0; i < length; i++) raw(RESULT_WORD, a[i], b[i]), store(i);
  else if (isPlain) for (let i = 0; i < length; i++) raw(RESULT_WORD, a[i], b[i], c[i]), store(i);
  else fillSlowly({raw, parameters, leaves, inMemory, hasStatus, result}, columns, outputs, status);
}

/** The same for calls with structs or with many numbers. */
function fillSlowly({raw, parameters, leaves, inMemory, hasStatus, result}, columns, outputs, status) {
  const words = inMemory ? [RESULT_WORD] : [], steps = [];
  let next = 0;
  parameters.forEach(({kind, isPair, leaves: inner}, place) => {
    if (kind in SIZES || isPair) {
      for (const _ of inner) {
        const word = words.push(0) - 1, items = columns[next++];
        steps.push((i) => { words[word] = items[i]; });
      }
      return;
    }
    const at = RESULT + PLACE * (place + 1);
    words.push(word(at));
    for (const leaf of inner) {
      const set = SET[leaf.kind], items = columns[next++];
      steps.push((i) => set(at + leaf.at, items[i]));
    }
  });
  const isSmall = !inMemory && leaves[0].kind !== result;
  const reads = leaves.map(({kind, at}, k) => { const get = GET[kind], to = outputs[k]; return (i) => { to[i] = get(RESULT + at); }; });
  for (let i = 0; i < status.length; i++) {
    for (const step of steps) step(i);
    const returned = raw(...words);
    if (hasStatus) status[i] = view.getUint32(RESULT, true);
    if (inMemory) for (const read of reads) read(i);
    else outputs[0][i] = isSmall ? Number(returned) : returned;
  }
}

// ---- the module is looked at when it is loaded

// One call of each shape, with its result. Rust below 1.89 passes structs in another way.
const SHAPES = [[rows.gcd, '6', 12n, 18n], [rows.divModFloor, '-3,1', -8n, 3n], [rows.fractionAdd, '5/6', [1n, 2n], [1n, 3n]],
  [rows.fractionCmp, '-1', [1n, 3n], [1n, 2n]], [rows.plusMonths, '2024-02-29', '2024-01-31', 1n], [rows.weekday, '4', 0n], [rows.easter, '2024-03-31', 2024n],
  [rows.sumOf, '3', [1n, 2n]], [rows.shares, '2,1', 3n, [2n, 1n]], [rows.fractionFromText, '3/2', '6/4']];

function look() {
  for (const [row, wanted, ...given] of SHAPES) {
    const [[name]] = row;
    let found;
    try {
      const result = resultOf(name, planOf(row), given);
      found = String(typeof result === 'object' && Object.getPrototypeOf(result) === Object.prototype ? Object.values(result) : result);
    } catch (error) {
      found = error.message;
    }
    if (found !== wanted) throw new Error(`cellarcove.wasm is not as its table says: ${name} returns ${found} and not ${wanted}`);
  }
}
