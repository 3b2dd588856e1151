// Prints how many nanoseconds calls take, of BigInts and of numbers, with exceptions and without, and beside the same by hand: the least of many turns.
//   node bindings/js/tests/speed.js [TURNS]         CELLARCOVE may name the folder of another package.
import {cellarcove} from './rows.js';

const {Fraction, PlainDate, ...calls} = cellarcove, COUNT = 256, TIMES = 2, turns = Number(process.argv[2] ?? 100);
let seed = 1;
const below = (bound) => {
  seed = Math.imul(seed, 1103515245) + 12345 >>> 0;
  return (seed >>> 8) % bound;
};
const many = (make) => Array.from({length: COUNT}, make), big = (given) => given.map((x) => Array.isArray(x) ? big(x) : BigInt(x));
const ofTry = (name) => `try${name[0].toUpperCase()}${name.slice(1)}`;

// ---- by hand: what a caller of BigInt or Date would write

const gcd = (x, y) => {
  while (y) [x, y] = [y, x % y];
  return x < 0n ? -x : x;
};
const reduced = (num, den) => {
  const divisor = gcd(num, den);
  return {num: num / divisor, den: den / divisor};
};
const compared = (a, b) => {
  const x = a.num * b.den, y = b.num * a.den;
  return x < y ? -1 : x > y ? 1 : 0;
};
const sum = (numbers) => numbers.reduce((all, x) => all + x, 0n);
const shared = (amount, weights) => {
  let rest = amount, left = sum(weights);
  return weights.map((weight) => {
    const part = rest * weight / left;
    [rest, left] = [rest - part, left - weight];
    return part;
  });
};
const time = ({year, month, day}) => Date.UTC(Number(year), month - 1, day);
const ofTime = (ms) => {
  const date = new Date(ms);
  return {year: date.getUTCFullYear(), month: date.getUTCMonth() + 1, day: date.getUTCDate()};
};
const monthsLater = ({year, month, day}, months) => {
  const last = new Date(Date.UTC(Number(year), month + months, 0)).getUTCDate();
  return ofTime(Date.UTC(Number(year), month - 1 + months, Math.min(day, last)));
};
const dateOf = (text) => {
  const [year, month, day] = text.split('-').map(Number);
  return {year, month, day};
};

// ---- rows

const pairs = many(() => [below(1e6) + 1, below(1e5) + 1]), triples = many(() => [below(1e6), below(1e6), below(1e5) + 1]), singles = many(() => [below(1e9)]);
const NUMBERS = {gcd: pairs, lcm: pairs, checkedSum: pairs, divFloor: pairs, divModFloor: pairs, extendedGcd: pairs, productDivRoundEven: triples, powerModulo: triples,
  rangeOfPage: triples.map(([page, , size]) => [page, size, 1e9]), sqrt: singles, cbrt: singles, isLeapYear: singles, weekday: singles, easter: singles, dateFromDay: singles};
const lists = many(() => [Array.from({length: 5}, () => below(1000) + 1)]), larger = lists.map(([list]) => [below(1e6), list]);
const fractions = () => many(() => Fraction.from([below(2000) - 1000, below(60) + 1])), dates = () => many(() => PlainDate.from([1900 + below(200), below(12) + 1, below(28) + 1]));
const ofFractions = fractions().map((a, k, all) => [a, all[(k + 1) % COUNT]]), ofDates = dates().map((a, k, all) => [a, all[(k + 1) % COUNT]]), later = dates().map((a) => [a, below(60)]);
const ofPairs = ofFractions.map((given) => given.map(({num, den}) => [Number(num), Number(den)])), ofObjects = ofPairs.map((given) => given.map(([num, den]) => ({num, den})));
const BY_HAND = {
  sumOf: [big(lists), sum], gcdOf: [big(lists), (numbers) => numbers.reduce(gcd)], shares: [big(larger), shared],
  fractionCmp: [ofFractions, compared], 'fractionCmp of pairs': [ofPairs, compared, ofFractions], 'fractionCmp, objects': [ofObjects, compared, ofFractions],
  fractionAdd: [ofFractions, (a, b) => reduced(a.num * b.den + b.num * a.den, a.den * b.den)],
  fractionMul: [ofFractions, (a, b) => reduced(a.num * b.num, a.den * b.den)], plusMonths: [later, monthsLater],
  plusDays: [later, (date, days) => ofTime(time(date) + 864e5 * days)], daysBetween: [ofDates, (a, b) => (time(b) - time(a)) / 864e5],
  weekdayOfDate: [later.map(([date]) => [date]), (date) => new Date(time(date)).getUTCDay()], dateFromText: [later.map(([date]) => [`${date}`]), dateOf],
};

/** A row: its name, and what it measures, each with a loop of its own so that the loops are not one to the compiler. */
function row(name, measured) {
  const loops = measured.map(([call, given]) => new Function('call', 'given', `return () => { let x; for (const [a, b, c] of given) x = call(${'abc'.slice(0, given[0].length).split('').join()}); return x; }`)(call, given));
  return {name, loops, least: loops.map(() => Infinity)};
}
const numbers = Object.entries(NUMBERS).map(([name, given]) => row(name, [[calls[name], big(given)], [calls[name], given], [calls[ofTry(name)], big(given)], [calls[ofTry(name)], given]]));
const byHand = Object.entries(BY_HAND).map(([name, [given, hand, same = given]]) => {
  const [call] = name.split(/\W/);
  return row(name, [[calls[call], given], [calls[ofTry(call)], given], [hand, same]]);
});
for (let turn = -20; turn < turns; turn++) for (const {loops, least} of [...numbers, ...byHand]) loops.forEach((loop, k) => {
  const start = process.hrtime.bigint();
  for (let time = 0; time < TIMES; time++) loop();
  if (turn >= 0) least[k] = Math.min(least[k], Number(process.hrtime.bigint() - start) / (COUNT * TIMES));
});
const shown = (cells) => cells.map((cell, k) => k === 0 ? cell.padEnd(20) : (typeof cell === 'number' ? cell.toFixed(cell < 20 ? 1 : 0) : cell).padStart(17)).join('');
console.log(shown(['', 'BigInt', 'number', 'try', 'number / BigInt', 'try / plain']));
for (const {name, least: [wide, plain, tried, triedPlain]} of numbers) console.log(shown([name, wide, plain, tried, plain / wide, Math.max(tried / wide, triedPlain / plain)]));
console.log(`\n${shown(['', 'call', 'try', 'by hand', 'call / by hand'])}`);
for (const {name, least: [plain, tried, hand]} of byHand) console.log(shown([name, plain, tried, hand, plain / hand]));
