// Tests of the package for JavaScript.   node --test bindings/js/tests/
import assert from 'node:assert/strict';
import {readdirSync, readFileSync, statSync} from 'node:fs';
import {createRequire} from 'node:module';
import {test} from 'node:test';
import {fileURLToPath, pathToFileURL} from 'node:url';
import {inspect} from 'node:util';
import {argument, CALLS, camel, cellarcove, folder, judge, parametersOf, rows} from './rows.js';

const {BUILT_BY, Decimal, Fraction, PlainDate, ready, Refused, Status, VERSION, ...calls} = cellarcove;
const {fractionFromDecimal, tryFractionFromDecimal} = calls;
const {checkedDifference, divModFloor, easter, fractionAdd, gcd, gcdOf, inverseModulo, isLeapYear, isoWeek, lcm, nthRoot, plusMonths, shares, tryLcm} = calls;
const {choiceOfRank, daysBetween, daysInMonth, fractionCmp, fractionToDecimal, isPerfectPower, powerModulo} = calls;
const {sharesByLargestRemainder, tryFractionAdd, tryFractionToDecimal, tryPlusMonths, weekday} = calls;
const found = [];
const ofTry = (name) => `try${name[0].toUpperCase()}${name.slice(1)}`;
const LARGE = [['gcdOf', [[2n ** 60n]]], ['multinomial', [[30, 34]]], ['rank', [Array.from({length: 32}, (_, k) => k + 32), 64]], ['choiceOfRank', [2n ** 60n, 2n ** 61n, 1]],
  ...['daysBetween', 'monthsBetween', 'yearsBetween'].map((name) => [name, [[-(2n ** 53n), 1, 1], [2n ** 53n, 1, 1]]]),
  ['factorial', [20]], ['fractionToDecimal', [[1, 3], 18]], ['dayFromDate', [[2n ** 53n, 1, 1]]], ['fractionFromText', [`1/${2n ** 63n - 1n}`]],
  ['fractionFromText', [`${2n ** 63n - 1n}/2`]], ['fractionFromDecimal', ['9223372036854775807.0']], ['fractionFromDecimal', ['0.000000000000000001']], ['dateFromText', ['+9007199254740993-01-01']],
  ['fractionPow', [[3, 2], 39]], ['fractionPow', [[2, 3], 39]], ['fractionLimitDenominator', [[1, 2n ** 60n], 2n ** 61n]], ['lcmOf', [[2n ** 30n, 3n ** 18n]]],
  ['chineseRemainder', [[2n ** 54n, 2n ** 55n], [2n ** 54n, 2n ** 56n]]], ['rangeOfPart', [1, 2, 2n ** 60n]]]; // calls with a large result
for await (const row of rows(1, 8)) found.push(row);

test('each export returns what Python computes, of numbers and of arrays', () => {
  const wrong = found.map((row) => judge(row)[0]).filter(Boolean);
  assert.deepEqual(wrong.slice(0, 5), []);
  const names = new Set(found.map(([name]) => camel(name)));
  assert.deepEqual(Object.keys(CALLS).filter((name) => !names.has(name)), []);
  assert.equal(Object.keys(calls).filter((name) => name.startsWith('try')).length, names.size);
});

test('a call in the place of another is found', () => {
  for (const [name, other] of [['divFloor', 'divCeil'], ['averageFloor', 'averageCeil'], ['sumModulo', 'differenceModulo'],
    ['nextCongruent', 'previousCongruent'], ['fractionRound', 'fractionFloor'], ['gcdOf', 'lcmOf'], ['easter', 'dateFromDay']]) {
    const functions = {...cellarcove, [name]: calls[other], [camel(`try_${name}`)]: calls[camel(`try_${other}`)]};
    assert.ok(found.some((row) => camel(row[0]) === name && judge(row, functions)[0]), `${name} and ${other}`);
  }
});

test('a refusal has its status and its words, and the forms without exceptions have the same', () => {
  assert.throws(() => inverseModulo(4, 6), (error) => error instanceof Refused && error instanceof RangeError && error.name === 'Refused'
    && error.code === 'NO_SOLUTION' && error.status === Status.NO_SOLUTION && error.message === 'inverseModulo: NO_SOLUTION: a is 4, m is 6: no number solves the congruences');
  assert.deepEqual(tryLcm(2n ** 63n, 3), {status: Status.NOT_FITTING, value: undefined});
  assert.deepEqual(tryLcm(4, 6), {status: Status.ANSWER, value: 12n});
  assert.deepEqual(tryFractionAdd('x/y', 1), {status: Status.OUTSIDE, value: undefined});
  assert.deepEqual(tryPlusMonths('2023-02-29', 1), {status: Status.NO_DATE, value: undefined});
  const words = readFileSync(new URL('../../c/cellarcove.h', import.meta.url), 'utf8');
  for (const status of Object.values(Status)) assert.ok(words.includes(`return "${new Refused(status).message.replace(/^[A-Z_]+: /, '')}";`));
});

test('the result is that of the signed form, or of the unsigned one if only that fits', () => {
  assert.equal(checkedDifference(2, 3), -1n);
  assert.equal(checkedDifference(2n ** 64n - 1n, 0), 2n ** 64n - 1n);
  assert.equal(lcm(2n ** 62n, 3), 3n * 2n ** 62n);
  assert.equal(gcd(-(2n ** 63n), 6), 2n);
  assert.equal(gcdOf([2n ** 63n, 0]), 2n ** 63n);
});

test('a number out of range is refused', () => {
  for (const given of [[2n ** 64n, 4], [-1, 2n ** 63n], [-(2n ** 63n) - 1n, 4]]) assert.throws(() => gcd(...given), {status: Status.NOT_FITTING});
  assert.throws(() => powerModulo(2, -1, 7), {status: Status.OUTSIDE});
  assert.throws(() => isPerfectPower(-4), {status: Status.OUTSIDE});
  assert.throws(() => nthRoot(-1, 2 ** 32), {status: Status.NOT_FITTING});
  assert.throws(() => choiceOfRank(0, 5, 2n ** 62n), {status: Status.OUTSIDE});
  for (const month of [-1, 0, 13, 300, 2n ** 70n]) assert.throws(() => daysInMonth(2024, month), {status: Status.NO_DATE});
});

test('what is no integer is a TypeError', () => {
  for (const given of [[1.5, 2], ['1', 2], [2 ** 53, 2], [NaN, 2], [undefined, 2], ['1'], [1, 2, '3'], [true, 2], [null, 1], [{}, 1]]) {
    assert.throws(() => gcd(...given), TypeError);
    assert.throws(() => tryLcm(...given), TypeError);
  }
  for (const given of ['1', [1, 'x'], [[1]], undefined]) assert.throws(() => gcdOf(given), TypeError);
  for (const given of [{num: 1}, [1], [1, 2, 3], null, 'x/y']) assert.throws(() => fractionAdd(given, '1/2'), given === 'x/y' ? {status: Status.OUTSIDE} : TypeError);
  for (const given of [{year: 2024}, 5, null, [2024, 2], undefined]) {
    assert.throws(() => plusMonths(given, 1), TypeError);
    assert.throws(() => tryPlusMonths(given, 1), TypeError);
  }
});

test('fractions and dates are objects with a text', () => {
  assert.deepEqual({...fractionAdd('1/2', [1, 3])}, {num: 5n, den: 6n});
  assert.equal(`${fractionAdd({num: -1, den: 2}, 1)} ${Fraction.from('6/-4')} ${Fraction.from(3)} ${Fraction.from([2, 4])}`, '1/2 -3/2 3 1/2');
  assert.equal(fractionCmp('1/2', '1/3'), 1);
  assert.deepEqual({...plusMonths('2024-01-31', 1)}, {year: 2024n, month: 2, day: 29});
  for (const text of ['2024-02-29', '0000-01-01', '9999-12-31', '+10000-01-01', '-0001-03-01', '+9223372036854775807-12-31', '-9223372036854775808-01-01']) {
    assert.equal(`${PlainDate.from(text)}`, text);
  }
  assert.throws(() => PlainDate.from('2023-02-29'), {status: Status.NO_DATE});
  assert.throws(() => PlainDate.from('+9223372036854775808-01-01'), {status: Status.NO_DATE});
  assert.equal(JSON.stringify([easter(12000), Fraction.from('1/3')]), '["+12000-04-02","1/3"]');
  assert.throws(() => Fraction.from(1) < Fraction.from(2), TypeError);
  assert.throws(() => easter(2024) < easter(2025), TypeError);
  const temporal = new class { get year() { return 2004; } get month() { return 12; } get day() { return 31; } }(); // has no own fields
  assert.deepEqual(isoWeek(temporal), {weekOfYear: 53, yearOfWeek: 2004n});
  assert.equal(daysBetween(PlainDate.from(temporal), '2005-01-01'), 1n);
});

test('a decimal number has a text, with its zeros', () => {
  const texts = [['1/20', 2, '0.05'], ['-1/20', 2, '-0.05'], ['1234/5', 2, '246.80'], ['1/8', 2, '0.12'], ['-1/8', 0, '0'], ['7/2', 0, '4'], ['-7/2', 0, '-4'],
    ['1/1000', 3, '0.001'], ['-1/1000', 2, '0.00'], ['-41/20', 2, '-2.05'], [3, 18n, '3.000000000000000000'], [2n ** 63n - 1n, 1, '9223372036854775807.0'],
    ['-9223372036854775808', 2, '-9223372036854775808.00'], ['1/1000000000000000000', 18, '0.000000000000000001'], ['-1/1000000000000000000', 18, '-0.000000000000000001']];
  for (const [fraction, places, text] of texts) {
    const found = fractionToDecimal(fraction, places);
    assert.equal(`${found}`, text);
    assert.equal(`${tryFractionToDecimal(fraction, places).value}`, text);
    assert.equal(found.places, Number(places));
    assert.ok(found instanceof Decimal);
  }
  for (let cents = -250; cents <= 250; cents++) assert.equal(`${fractionToDecimal([cents, 100], 2)}`, (cents / 100).toFixed(2));
  assert.deepEqual({...fractionToDecimal('-1/20', 2)}, {isNegative: true, whole: 0n, part: 5n});
  assert.equal(JSON.stringify({price: fractionToDecimal('1/20', 2)}), '{"price":"0.05"}');
  assert.throws(() => fractionToDecimal('1/20', 2) + 1, TypeError);
  assert.throws(() => fractionToDecimal('1/20', 2) < fractionToDecimal('1/10', 2), TypeError);
  assert.throws(() => fractionToDecimal('1/20', 19), {status: Status.OUTSIDE});
  const columns = fractionToDecimal({num: BigInt64Array.of(-1n, 1234n), den: BigInt64Array.of(20n, 5n)}, 2);
  assert.deepEqual(columns, {isNegative: Uint8Array.of(1, 0), whole: BigUint64Array.of(0n, 246n), part: BigUint64Array.of(5n, 80n), status: Uint8Array.of(0, 0)});
});

test('a text that is no date is refused with NO_DATE by every call', () => {
  const names = Object.keys(CALLS).filter((name) => CALLS[name][0][1].includes(':Date')), texts = ['31.01.2024', '2024-02-30', '2024-2-09', '02024-02-09', '+2024-02-09',
    '10000-01-01', '', 'hello', '+9223372036854775808-01-01'];
  assert.ok(names.length > 6);
  for (const name of names) for (const text of texts) {
    const given = CALLS[name][0][1].split(' ').map((it) => it.endsWith(':Date') ? text : 1);
    assert.throws(() => calls[name](...given), {name: 'Refused', status: Status.NO_DATE, code: 'NO_DATE'});
    assert.deepEqual(calls[ofTry(name)](...given), {status: Status.NO_DATE, value: undefined});
  }
  for (const text of texts) for (const made of [() => PlainDate.from(text), () => calls.dateFromText(text)]) assert.throws(made, {code: 'NO_DATE'});
});

test('a date exists, is frozen, and is compared', () => {
  for (const given of [[2024n, 13, 99], [2023, 2, 29], [2024, 0, 1], [2024, 1, 300]]) assert.throws(() => new PlainDate(...given), {status: Status.NO_DATE});
  assert.throws(() => new PlainDate(2024, 1.5, 1), TypeError);
  const date = new PlainDate(2024, 2n, 29);
  assert.deepEqual({...date}, {year: 2024n, month: 2, day: 29});
  for (const each of [date, plusMonths(date, 1), Fraction.from('1/2'), new Fraction(2, 4), fractionToDecimal('1/2', 1)]) {
    assert.ok(Object.isFrozen(each));
    assert.throws(() => { each.year = each.num = each.whole = 5n; }, TypeError);
  }
  assert.throws(() => new Fraction(1n, 0n), {status: Status.ZERO_DENOMINATOR});
  assert.throws(() => new Decimal(false, 1n, 5n, 1), TypeError);
  assert.equal(`${new Fraction(2, 4)}`, '1/2');
  const dates = ['2024-03-01', '-0001-12-31', '+12000-01-01', '2024-02-29', '2023-12-31'].map(PlainDate.from);
  assert.equal(String(dates.sort(PlainDate.compare)), '-0001-12-31,2023-12-31,2024-02-29,2024-03-01,+12000-01-01');
  assert.equal(PlainDate.compare('2024-02-29', date), 0);
  assert.ok(date.equals('2024-02-29') && date.equals([2024, 2, 29]) && !date.equals('2024-03-01'));
  assert.throws(() => date.equals('hello'), {code: 'NO_DATE'});
  assert.equal(JSON.stringify({date}), '{"date":"2024-02-29"}');
});

test('an operator says what to write, and that works', () => {
  const date = PlainDate.from('2024-02-29'), half = Fraction.from('1/2'), price = fractionToDecimal('1/20', 2);
  assert.throws(() => 'due ' + date, {name: 'TypeError', message: 'a date has no + and no ==: write plusDays(date, days) or date.equals(other), or `${date}` for its text'});
  assert.equal(`due ${date}, ${calls.plusDays(date, 1)}, ${date.equals(date)}`, 'due 2024-02-29, 2024-03-01, true');
  assert.throws(() => date < date, {name: 'TypeError', message: 'a date has no < and no -: write PlainDate.compare(a, b) or daysBetween(a, b)'});
  assert.throws(() => date - date, /daysBetween/);
  for (const made of [() => half + half, () => half == 1]) assert.throws(made, /fractionAdd\(a, b\) or fractionCmp/);
  for (const made of [() => half < half, () => +half, () => half - half]) assert.throws(made, /fractionCmp\(a, b\) or fractionSub/);
  for (const made of [() => price + 1, () => price < price, () => price.valueOf(), () => half.valueOf(), () => date.valueOf()]) assert.throws(made, TypeError);
  assert.equal(`${half} ${price} ${[half, date]}`, '1/2 0.05 1/2,2024-02-29');
});

test('a date of Temporal is one of its calendar iso8601', () => {
  const temporal = (calendarId, year) => new class { get calendarId() { return calendarId; } get year() { return year; } get month() { return 1; } get day() { return 31; } }();
  assert.equal(`${plusMonths(temporal('iso8601', 2024), 1)} ${PlainDate.from(temporal('iso8601', 2024))}`, '2024-02-29 2024-01-31');
  for (const [calendar, year] of [['buddhist', 2567], ['hebrew', 5784], ['islamic-umalqura', 1445], ['roc', 113], ['gregory', 2024]]) {
    const date = temporal(calendar, year), columns = {calendarId: calendar, year: BigInt64Array.of(2567n), month: 1, day: 31};
    for (const made of [() => plusMonths(date, 1), () => tryPlusMonths(date, 1), () => daysBetween('2024-03-01', date), () => PlainDate.from(date), () => plusMonths(columns, 1)]) {
      assert.throws(made, (error) => error instanceof TypeError && error.message.includes(`"${calendar}"`) && error.message.includes("withCalendar('iso8601')"));
    }
  }
});

test('an error has the name of the call, the parameter and the value in quotes', () => {
  for (const [made, message] of [
    [() => plusMonths('2024-02-30', 1), 'plusMonths: NO_DATE: date is "2024-02-30", which is no date such as 2024-02-29'],
    [() => daysBetween('2024-01-01', 'x'), 'daysBetween: NO_DATE: to is "x", which is no date such as 2024-02-29'],
    [() => plusMonths([2024, 2, 30], 1), 'plusMonths: NO_DATE: date is [2024, 2, 30], months is 1: there is no such date'],
    [() => plusMonths({year: 2024, month: 2, day: 30}, 1), 'plusMonths: NO_DATE: date is {year: 2024, month: 2, day: 30}, months is 1: there is no such date'],
    [() => daysInMonth(2024, 13), 'daysInMonth: NO_DATE: year is 2024, month is 13: there is no such date'],
    [() => PlainDate.from('x'), 'PlainDate.from: NO_DATE: value is "x", which is no date such as 2024-02-29'],
    [() => PlainDate.compare('2024-02-29', 'x'), 'PlainDate.compare: NO_DATE: other is "x", which is no date such as 2024-02-29'],
    [() => PlainDate.compare('x', '2024-02-29'), 'PlainDate.compare: NO_DATE: one is "x", which is no date such as 2024-02-29'],
    [() => PlainDate.from('2024-02-29').equals('x'), 'PlainDate.equals: NO_DATE: other is "x", which is no date such as 2024-02-29'],
    [() => PlainDate.from('2024-02-29').equals(null), 'PlainDate.equals: other is null, which has not the parts year, month, day'],
    [() => calls.dateFromText('hello'), 'dateFromText: NO_DATE: text is "hello", which is no date such as 2024-02-29'],
    [() => calls.fractionFromText('19.99'), 'fractionFromText: OUTSIDE: text is "19.99", which is no fraction such as -3/4'],
    [() => calls.fractionFromText('1/0'), 'fractionFromText: ZERO_DENOMINATOR: text is "1/0": the denominator of a fraction is 0, or a divisor of fractions is'],
    [() => Fraction.from(0.5), 'Fraction.from: value is 0.5, which is no safe integer'],
    [() => Fraction.from('x/y'), 'Fraction.from: OUTSIDE: value is "x/y", which is no fraction such as -3/4 or -0.75'],
    [() => gcd(new Uint8Array(1), 2), 'gcd: the items of the arrays have different types, or are no integers of 64 bits'],
    [() => plusMonths(new Uint8Array(1), 2), 'plusMonths: date is of type Uint8Array, which has not the parts year, month, day'],
    [() => new PlainDate(2024, 13, 99), 'PlainDate: NO_DATE: date is [2024, 13, 99]: there is no such date'],
    [() => fractionAdd('1/2', 'x/y'), 'fractionAdd: OUTSIDE: b is "x/y", which is no fraction such as -3/4 or -0.75'],
    [() => fractionAdd('1/0', 1), 'fractionAdd: ZERO_DENOMINATOR: a is "1/0": the denominator of a fraction is 0, or a divisor of fractions is'],
    [() => gcd('12', 18), 'gcd: x is "12", which is neither a BigInt nor a safe integer'],
    [() => gcd(12, 1.5), 'gcd: y is 1.5, which is no safe integer'],
    [() => calls.tryGcd(12, null), 'tryGcd: y is null, which is neither a BigInt nor a safe integer'],
    [() => gcd(2n ** 64n, 1), 'gcd: NOT_FITTING: x is 18446744073709551616, which is out of range'],
    [() => gcd(-1, 2n ** 63n), 'gcd: NOT_FITTING: x is -1, y is 9223372036854775808: one number is negative, and another is 2^63 or more'],
    [() => powerModulo(2, -1, 7), 'powerModulo: OUTSIDE: exponent is -1, which is out of range'],
    [() => lcm(-(2n ** 62n), 3), 'lcm: NOT_FITTING: x is -4611686018427387904, y is 3: the result does not fit its type, or a part of a fraction, once reduced, does not'],
    [() => gcdOf([4, 6, '8']), 'gcdOf: numbers[2] is "8", which is neither a BigInt nor a safe integer'],
    [() => shares(100, 3), 'shares: weights is 3, which is no list'],
    [() => shares(100, [0, 0, 0, 0, 0]), 'shares: OUTSIDE: amount is 100, weights is [0, 0, 0, 0, ..]: nothing is defined for the arguments, such as a quotient by 0'],
    [() => calls.fractionDiv(new Fraction(1, 2), '0'), 'fractionDiv: ZERO_DENOMINATOR: a is {num: 1, den: 2}, b is "0": the denominator of a fraction is 0, or a divisor of fractions is'],
    [() => new Fraction(1, 0), 'Fraction: ZERO_DENOMINATOR: num is 1, den is 0: the denominator of a fraction is 0, or a divisor of fractions is'],
    [() => calls.chineseRemainder({residue: 1, modulus: 4}, {modulus: 6, residue: 2}), 'chineseRemainder: NO_SOLUTION: one is {residue: 1, modulus: 4}, other is {residue: 2, modulus: 6}: no number solves the congruences'],
    [() => calls.nextCommonSolutionOf(10, [{residue: 1, modulus: 4}, {residue: 2, modulus: 6}]), 'nextCommonSolutionOf: NO_SOLUTION: from is 10, congruences is [{residue: 1, modulus: 4}, {residue: 2, modulus: 6}]: no number solves the congruences'],
    [() => divModFloor(1), 'divModFloor takes x, y'],
    [() => calls.nextCommonSolutionOf(10, [{residue: 1, modulus: 4}, [3]]), 'nextCommonSolutionOf: congruences[1] is [3], which has not the parts residue, modulus'],
    [() => calls.nextCommonSolutionOf(10, [[1, 4]]), 'nextCommonSolutionOf: congruences[0] is [1, 4], which has not the parts residue, modulus'],
    [() => gcd(BigInt64Array.of(1n), new Int32Array(1)), 'gcd: the items of the arrays have different types, or are no integers of 64 bits'],
  ]) assert.throws(made, {message});
});

test('a congruence and a schedule have names, and no positions', () => {
  const {chineseRemainder, countCongruent, countTimes, nextCommonSolution, nextCommonSolutionOf, nextCongruent, nextMeeting, previousCongruent, tryNextMeeting} = calls;
  const one = {residue: 1, modulus: 4}, other = {modulus: 6, residue: 3}, bus = {first: 1, period: 4}, tram = {period: 6n, first: 3n};
  assert.deepEqual([nextCongruent(10, one), previousCongruent(10, one), countCongruent(1, 10, one), nextCommonSolution(10, one, other), nextCommonSolutionOf(10, [one, other])], [13n, 9n, 3n, 21n, 21n]);
  assert.deepEqual([chineseRemainder(one, other), nextMeeting(10, bus, tram), nextMeeting(10, tram, bus), countTimes(4, 15, tram), countTimes(-9, 15, tram)], [{first: 9n, step: 12n}, 21n, 21n, 2n, 3n]);
  assert.ok(Object.isFrozen(chineseRemainder(one, other)) && Object.isFrozen(calls.solutions(6, 4, 10)));
  assert.equal(nextCommonSolution(2n ** 63n, {residue: 2n ** 64n - 1n, modulus: 4}, {residue: 7, modulus: 8}), 2n ** 63n + 7n);
  assert.equal(nextMeeting(10, {...bus, id: 7}, {...tram, name: 'x'}), 21n); // a row of a table may have other names
  assert.deepEqual(nextMeeting(BigInt64Array.of(10n, -100n), bus, {first: BigInt64Array.of(3n, 0n), period: 6}), {value: BigInt64Array.of(21n, 0n), status: Uint8Array.of(0, 4)});
  assert.deepEqual(chineseRemainder({residue: BigUint64Array.of(1n), modulus: 4}, {residue: 3, modulus: BigUint64Array.of(6n)}),
    {first: BigUint64Array.of(9n), step: BigUint64Array.of(12n), status: Uint8Array.of(0)});
  const noParts = (call, parameter, shown, names) => `${call}: ${parameter} is ${shown}, which has not the parts ${names}`, ofTime = 'first, period', ofResidue = 'residue, modulus';
  for (const [made, message] of [
    [() => chineseRemainder(1, 4, 3, 6), 'chineseRemainder takes one, other'], [() => nextCongruent(10, 1, 4), 'nextCongruent takes from, congruence'],
    [() => nextMeeting(10, 1, 4, 3, 6), 'nextMeeting takes now, one, other'], [() => countTimes(4, 15, 3, 6), 'countTimes takes from, to, schedule'],
    [() => nextCongruent(10, 4), noParts('nextCongruent', 'congruence', '4', ofResidue)], [() => nextCongruent(10, [1, 4]), noParts('nextCongruent', 'congruence', '[1, 4]', ofResidue)],
    [() => nextMeeting(bus, 10, tram), 'nextMeeting: now is of type Object, which is neither a BigInt nor a safe integer'],
    [() => nextMeeting(10, one, tram), noParts('nextMeeting', 'one', 'of type Object', ofTime)], [() => chineseRemainder(one, bus), noParts('chineseRemainder', 'other', 'of type Object', ofResidue)],
    [() => nextMeeting(10, bus, {first: 3, step: 6}), noParts('nextMeeting', 'other', 'of type Object', ofTime)], [() => tryNextMeeting(10, bus, null), noParts('tryNextMeeting', 'other', 'null', ofTime)],
    [() => nextMeeting(10, bus, '3'), noParts('nextMeeting', 'other', '"3"', ofTime)], [() => countTimes(4, 15, {period: 6}), noParts('countTimes', 'schedule', 'of type Object', ofTime)],
    [() => nextMeeting(10, bus, {first: '3', period: 6}), 'nextMeeting: other is "3", which is neither a BigInt nor a safe integer'],
    [() => nextMeeting(10, bus, {first: 3, period: 1.5}), 'nextMeeting: other is 1.5, which is no safe integer'],
  ]) assert.throws(made, {name: 'TypeError', message});
  for (const period of [0, -6]) assert.throws(() => nextMeeting(10, bus, {first: 3, period}), {status: Status.BAD_MODULUS});
  assert.throws(() => nextMeeting(10, bus, {first: 2n ** 64n, period: 4}), {message: 'nextMeeting: NOT_FITTING: other is 18446744073709551616, which is out of range'});
  assert.deepEqual(tryNextMeeting(0, {first: 0, period: 2}, {first: 1, period: 2}), {status: Status.NO_SOLUTION, value: undefined});
});

test('a row of a table is an object like any other', () => {
  const row = {year: 2024, month: 1, day: 31, num: 1, den: 2, blob: Buffer.from('x')};
  assert.equal(`${plusMonths(row, 1)} ${fractionAdd(row, row)} ${daysBetween(row, [2024, 2, 1])}`, '2024-02-29 1 1');
  assert.throws(() => gcd(row, 1), TypeError);
});

test('a decimal text is read exactly', () => {
  for (const [text, fraction] of [['19.99', '1999/100'], ['-0.05', '-1/20'], ['12', '12'], ['0', '0'], ['-0.0', '0'], ['1.5000', '3/2'], [`1.${'0'.repeat(500)}`, '1'],
    ['007.250', '29/4'], ['9223372036854775807', '9223372036854775807'], ['-9223372036854775808.000', '-9223372036854775808'], ['0.000000000000000001', '1/1000000000000000000'],
    ['0.000003814697265625', '1/262144'], [`0.500000000000000000${'0'.repeat(100)}`, '1/2']]) {
    assert.equal(`${fractionFromDecimal(text)}`, fraction, text);
    assert.equal(`${tryFractionFromDecimal(text).value}`, fraction);
    assert.equal(`${Fraction.from(text)}`, fraction);
  }
  for (let cents = -250; cents <= 250; cents++) assert.equal(fractionCmp(fractionFromDecimal((cents / 100).toFixed(2)), [cents, 100]), 0);
  for (const text of ['9223372036854775808', '9'.repeat(5000), '-9223372036854775808.5', '123456789.987654321012345678']) {
    assert.throws(() => fractionFromDecimal(text), {status: Status.NOT_FITTING}, text);
    assert.deepEqual(tryFractionFromDecimal(text), {status: Status.NOT_FITTING, value: undefined});
  }
  const places = 'a digit that is not 0 after the 18th place';
  for (const [text, reason] of [['1,999.00', 'a group separator or a decimal comma'], ['19,99', 'a group separator or a decimal comma'], ["1'000.5", 'a group separator or a decimal comma'],
    ['1 000', 'a group separator or a decimal comma'], ['1e3', 'an exponent'], ['1.5E-3', 'an exponent'], ['$19.99', 'a currency or another word'], ['19.99 EUR', 'a currency or another word'],
    ['', ''], ['.5', ''], ['5.', ''], ['--1', ''], ['+12', ''], ['1/2', ''], ['1.2.3', ''], ['Infinity', 'a currency or another word'], ['٣', ''], ['0.0000019073486328125', places], ['0.0000000000000000001', places],
    [`0.${'3'.repeat(19)}`, places]]) {
    const message = `fractionFromDecimal: OUTSIDE: text is ${JSON.stringify(text)}, which is no decimal number such as -19.99${reason && `: it has ${reason}`}`;
    assert.throws(() => fractionFromDecimal(text), {code: 'OUTSIDE', message});
    assert.deepEqual(tryFractionFromDecimal(text), {status: Status.OUTSIDE, value: undefined});
  }
  assert.throws(() => fractionFromDecimal(`0.${'3'.repeat(2000)}`), {code: 'OUTSIDE'});
  for (const given of [[19.99], [], ['1', '2'], [null]]) assert.throws(() => fractionFromDecimal(...given), TypeError);
  assert.equal(`${fractionAdd('19.99', '0.01')} ${fractionToDecimal('19.99', 2)}`, '20 19.99');
  assert.throws(() => fractionAdd('1,999.00', 1), {message: 'fractionAdd: OUTSIDE: a is "1,999.00", which is no decimal number such as -19.99: it has a group separator or a decimal comma'});
});

test('a long decimal text is read, or refused, in a time as its length', () => {
  const zeros = '0'.repeat(50_000), began = performance.now();
  for (const [text, status] of [[`${zeros}x`, Status.OUTSIDE], [`0.${zeros}x`, Status.OUTSIDE], [`0.${zeros}1`, Status.OUTSIDE], [`0.1${zeros}x`, Status.OUTSIDE],
    [`1${zeros}x`, Status.OUTSIDE], [`0.${'10'.repeat(25_000)}x`, Status.OUTSIDE], [`${zeros}1.5${zeros}`, Status.ANSWER]]) {
    assert.equal(tryFractionFromDecimal(text).status, status);
    assert.equal(calls.tryFractionAdd(text.includes('.') ? text : `${text}.0`, 1).status, status);
  }
  assert.ok(performance.now() - began < 2000); // the square of the length takes minutes
});

test('a list, or any count of numbers', () => {
  assert.deepEqual([gcd(12, 18, 27n), gcd([12, 18]), gcd(12), gcd(), gcd(-12), gcd(BigInt64Array.of(12n, 18n)), gcd(new Set([8, 12]))], [3n, 6n, 12n, 0n, 12n, 6n, 4n]);
  assert.deepEqual([lcm(4, 6, 10), lcm([4, 6, 10]), lcm(), gcdOf(12, 18), gcdOf(5), gcdOf(), calls.lcmOf(4, 6), calls.sumOf(1, 2, 3), calls.sumOf([1, 2, 3]), calls.sumOf()],
    [60n, 60n, 1n, 6n, 5n, 0n, 12n, 6n, 6n, 0n]);
  assert.deepEqual([calls.tryGcd(12, 18, 27), calls.tryLcm([4, 6]), calls.trySumOf(2n ** 63n, 2n ** 63n).status], [{status: 0, value: 3n}, {status: 0, value: 12n}, Status.NOT_FITTING]);
  assert.throws(() => calls.sumOf(2n ** 64n - 1n, 1), {status: Status.NOT_FITTING});
});

test('a result that is always below 2^53 is a number, and another is a BigInt', () => {
  const large = new Map(), kinds = new Map(); // of each number of a result: whether one is beyond 2^53, and its types
  const look = (place, x) => {
    large.set(place, large.get(place) || BigInt(x) > 2n ** 53n || BigInt(x) < -(2n ** 53n));
    kinds.set(place, new Set([...kinds.get(place) ?? [], typeof x]));
  };
  const leaves = (place, value) => typeof value === 'boolean' ? undefined : typeof value !== 'object' ? look(place, value)
    : Array.isArray(value) ? value.forEach((it) => leaves(`${place}[]`, it)) : Object.entries(value).forEach(([name, it]) => leaves(`${place}.${name}`, it));
  for (const [name, given] of [...found.filter((row) => row[1] === '').map(([name, , given]) => [camel(name), given]), ...LARGE]) {
    const {status, value} = calls[ofTry(name)](...given.map((it, place) => argument(it, parametersOf(name)[place])));
    if (status === 0) leaves(name, value);
  }
  assert.deepEqual([...kinds].filter(([, types]) => types.size !== 1), []);
  assert.deepEqual([...kinds].filter(([place, [type]]) => (type === 'bigint') !== large.get(place)), []);
  const seen = new Set([...kinds.keys()].map((place) => place.split(/[.[]/)[0]));
  assert.deepEqual(Object.keys(CALLS).filter((name) => !seen.has(name) && CALLS[name][0][2] !== 'bool'), []);
  const types = readFileSync(`${folder}/cellarcove.d.ts`, 'utf8');
  for (const [place, [type]] of kinds) {
    const [, name, leaf] = /^(\w+)(?:\[\])?(?:\.(\w+))?$/.exec(place), said = new RegExp(`^export function ${name}\\(.*\\): (.*);$`, 'm').exec(types)[1];
    if (!/^(Fraction|PlainDate|Decimal)$/.test(said)) assert.match(said, leaf ? new RegExp(`\\b${leaf}: ${type}\\b`) : new RegExp(`^${type}\\b`), place);
  }
  assert.deepEqual([calls.daysInMonth(2024, 2), calls.weekdayOfDate('2024-03-02'), calls.dayOfYear('2024-12-31'), calls.ilog(1000, 10), calls.sqrt(144), calls.cbrt(-27), calls.sqrtRem(150)],
    [29, 6, 366, 3, 12, -3, {root: 12, rest: 6}]);
  assert.deepEqual([calls.sqrt(2n ** 64n - 1n), calls.cbrt(2n ** 64n - 1n), calls.cbrt(-(2n ** 63n)), calls.sqrtRem(2n ** 64n - 1n), calls.ilog(2n ** 64n - 1n, 2)],
    [4294967295, 2642245, -2097152, {root: 4294967295, rest: 8589934590}, 63]);
  assert.deepEqual(calls.sqrtRem(BigUint64Array.of(2n ** 64n - 1n, 150n)), {root: Uint32Array.of(4294967295, 12), rest: Float64Array.of(8589934590, 6), status: Uint8Array.of(0, 0)});
  assert.deepEqual(calls.cbrt(BigInt64Array.of(-27n, -(2n ** 63n))), Int32Array.of(-3, -2097152));
  assert.deepEqual(calls.dayOfYear({year: BigInt64Array.of(2024n), month: 12, day: 31}).value, Uint16Array.of(366));
});

test('reading an argument may make another call', () => {
  const other = () => [fractionAdd('7/9', '8/11'), gcdOf([5, 10]), plusMonths('1999-12-31', 5), calls.sumOf(9, 9, 9, 9), shares(7, [1, 1, 1])];
  assert.equal(`${fractionAdd('1/3', {get num() { other(); return 1; }, den: 2})}`, '5/6');
  const date = {year: 2024, get month() { other(); return 1; }, day: 31}, list = Object.defineProperty([1, 2, 3], 1, {get() { other(); return 2; }});
  assert.equal(`${plusMonths(date, 1)} ${daysBetween('2024-01-01', date)} ${calls.sumOf(list)} ${shares(6, list)}`, '2024-02-29 30 6 1,2,3');
  const shorter = Object.defineProperty([1, 2, 3], 0, {get() { shorter.length = 1; return 1; }});
  assert.equal(calls.sumOf(shorter), 1n);
  const large = Array.from({length: 300_000}, (_, place) => BigInt(place)); // for which the memory grows
  assert.deepEqual([calls.sumOf(large), shares(large.length, large.fill(1n)).length], [44999850000n, 300_000]);
});

test('two fractions are compared in each of their forms', () => {
  const forms = [(num, den) => [num, den], (num, den) => ({num, den}), (num, den) => [BigInt(num), den], (num, den) => ({num, den: BigInt(den)}),
    (num, den) => [BigInt(num), BigInt(den)], (num, den) => ({num: BigInt(num), den: BigInt(den)}), (num, den) => `${num}/${den}`, (num, den) => Fraction.from([num, den])];
  const given = [[0, 7], [1, 3], [-1, 3], [2 ** 31, 2 ** 31 - 1], [-(2 ** 31) - 1, 2 ** 32 + 1], [2 ** 53 - 1, 2 ** 53 - 2], [1 - 2 ** 53, 2 ** 53 - 2]];
  for (const [num, den] of given) for (const [num2, den2] of given) {
    const x = BigInt(num) * BigInt(den2), y = BigInt(num2) * BigInt(den), order = x < y ? -1 : x > y ? 1 : 0;
    for (const one of forms) for (const other of forms) assert.equal(fractionCmp(one(num, den), other(num2, den2)), order);
  }
  const wrong = [[1], [1, 2, 3], [0.5, 1], [1, 0.5], [NaN, 1], [2 ** 53, 1], [1, Infinity], ['1', 2], [null, 1], {num: 1}, {den: 1}, {}, null, undefined, true, NaN];
  for (const form of forms) for (const one of wrong) {
    assert.throws(() => fractionCmp(one, form(1, 2)), TypeError);
    assert.throws(() => fractionCmp(form(1, 2), one), TypeError);
  }
  for (const one of [[2n ** 63n, 1], {num: 1n, den: 2n ** 63n}, [-(2n ** 63n) - 1n, 1n], [2n ** 64n + 1n, 2n], {num: 1n, den: 2n ** 64n + 2n}]) for (const form of forms) {
    assert.throws(() => fractionCmp(form(1, 2), one), {status: Status.NOT_FITTING});
    assert.throws(() => fractionCmp(one, form(1, 2)), {status: Status.NOT_FITTING});
  }
});

test('a number is the BigInt of its value, in a list, a fraction and a date too', () => {
  const numbers = [0, -0, 1, -1, 2 ** 31 - 1, 2 ** 31, -(2 ** 31), -(2 ** 31) - 1, 2 ** 32 - 1, 2 ** 32, -(2 ** 32), 2 ** 40 + 1, -(2 ** 40) + 1, 2 ** 53 - 1, 1 - 2 ** 53];
  for (const x of numbers) {
    const wide = BigInt(x);
    assert.deepEqual([calls.sumOf(x), calls.sumOf([x, 0]), calls.checkedSum(x, 0), calls.fractionFloor(x), calls.fractionFloor([x, 1]), calls.fractionFloor({num: x, den: 1})], Array(6).fill(wide));
    assert.deepEqual([PlainDate.from([x, 1, 31]).year, new PlainDate(x, 1, 31).year, plusMonths({year: x, month: 1, day: 31}, 1).year, calls.dateFromDay(x).year], [wide, wide, wide, calls.dateFromDay(wide).year]);
    assert.deepEqual([fractionCmp([x, 1], [wide, 1n]), fractionCmp([x, 2], [wide - 1n, 2]), Fraction.from([x, 1]).num], [0, 1, wide]);
    if (x >= 0) assert.deepEqual([calls.rank([x], 2n ** 63n), shares(x, [x || 1, 0])], [wide, [wide, 0n]]);
  }
  for (const [year, month, day] of [[2024, 2.5, 1], [2024, 256 + 2, 1], [2024, 2, 256 + 1], [2024, -254, 1], [2024, NaN, 1], [2024, '2', 1]]) assert.throws(() => PlainDate.from([year, month, day]));
  for (const exponent of [-3, 2 ** 31, -(2 ** 31) - 1, 2 ** 32 + 1]) {
    assert.deepEqual(calls.tryFractionPow('1/2', exponent), exponent === -3 ? {status: 0, value: calls.fractionPow([1n, 2n], -3n)} : {status: Status.NOT_FITTING, value: undefined});
  }
});

test('odd cents', () => {
  assert.deepEqual(shares(1002, [1, 1, 1, 1]), [251n, 250n, 251n, 250n]);
  assert.deepEqual(sharesByLargestRemainder(1002, [1, 1, 1, 1]), [251n, 251n, 250n, 250n]);
});

test('an array decides by its type, and a number by what fits', () => {
  assert.deepEqual(lcm(BigInt64Array.of(2n ** 62n), 3), {value: BigInt64Array.of(0n), status: Uint8Array.of(Status.NOT_FITTING)});
  assert.deepEqual(lcm(BigUint64Array.of(2n ** 62n), 3), {value: BigUint64Array.of(3n * 2n ** 62n), status: Uint8Array.of(0)});
  assert.equal(lcm(2n ** 62n, 3), 3n * 2n ** 62n);
  assert.equal(lcm(-(2n ** 62n), 1), 2n ** 62n);
  assert.throws(() => lcm(-(2n ** 62n), 3), {status: Status.NOT_FITTING});
});

test('arrays', () => {
  const x = BigInt64Array.of(12n, -(2n ** 63n), 7n);
  assert.deepEqual(gcd(x, 0), {value: BigInt64Array.of(12n, 0n, 7n), status: Uint8Array.of(0, 2, 0)});
  assert.deepEqual(gcd(BigUint64Array.of(2n ** 63n), 0), {value: BigUint64Array.of(2n ** 63n), status: Uint8Array.of(0)});
  assert.deepEqual(divModFloor(x.subarray(0, 1), -5), {quotient: BigInt64Array.of(-3n), remainder: BigInt64Array.of(-3n), status: Uint8Array.of(0)});
  assert.deepEqual(isLeapYear(BigInt64Array.of(2024n, 1900n)), Uint8Array.of(1, 0));
  assert.deepEqual(weekday(new BigInt64Array(0)), new Uint8Array(0));
  const days = plusMonths({year: BigInt64Array.of(2024n, 2023n), month: 1, day: 31}, 1);
  assert.deepEqual(days, {year: BigInt64Array.of(2024n, 2023n), month: Uint8Array.of(2, 2), day: Uint8Array.of(29, 28), status: Uint8Array.of(0, 0)});
  assert.deepEqual(daysBetween(days, '2024-03-01').value, BigInt64Array.of(1n, 367n));
  assert.deepEqual(gcdOf(BigUint64Array.of(12n, 18n)), 6n);
  assert.deepEqual(shares(-100, Uint8Array.of(1, 1, 1)), [-34n, -33n, -33n]);
  assert.equal(gcdOf((function* numbers() { yield tryLcm(2n ** 64n, 1).status; yield 4; })()), 2n); // a call within a call
  for (const given of [[x, BigUint64Array.of(1n, 1n, 1n)], [x, BigInt64Array.of(1n)], [new Int32Array(3), 1], [new Float64Array(3), 1], [x, 1.5], [x, x, x], [x, [1]]]) {
    assert.throws(() => gcd(...given), TypeError);
  }
  assert.throws(() => gcd(x, 2n ** 63n), {status: Status.NOT_FITTING});
  assert.equal(gcdOf(Array.from({length: 300_000}, (_, k) => 6 * k)), 6n); // the memory grows
  assert.deepEqual(gcd(x, 0).value[2], 7n);
});

for (const name of ['README.md', 'docs/JAVASCRIPT.md', 'docs/COOKBOOK.md', 'bindings/js/README.md']) test(`the examples of ${name} hold`, () => {
  const page = readFileSync(new URL(`../../../${name}`, import.meta.url), 'utf8').split('```js\n')[1].split('```')[0];
  for (const [, expression, said] of page.matchAll(/^(?!import)(.*); +\/\/ (.*)$/gm)) {
    let value;
    try {
      value = inspect(new Function(...Object.keys(cellarcove), `return ${expression};`)(...Object.values(cellarcove)));
    } catch (error) {
      value = String(error);
    }
    assert.equal(value, said);
  }
});

test('a module is loaded at once, by require too, and with the bytes inside', async () => {
  const require = createRequire(import.meta.url), loaded = process.features.require_module ? require(`${folder}/cellarcove.js`) : cellarcove;
  assert.equal(loaded.gcd, gcd);
  assert.equal(await ready, undefined);
  if (BUILT_BY === 'cargo') assert.equal((await import(`${folder}/inline.js?alone`)).gcd(12, 18), 6n);
  const runtime = await import(`${folder}/runtime.js?alone`);
  assert.throws(() => runtime.call('gcd', CALLS.gcd)(12, 18), {message: 'cellarcove.wasm is not loaded yet: await ready before the first call'});
  const {start} = await import(`${folder}/runtime.js?other`), memory = new WebAssembly.Memory({initial: 2});
  assert.throws(() => start({exports: {memory, cellarcove_gcd_i64: () => 0, cellarcove_built_by: {}}}), /cellarcove\.wasm/);
  const names = JSON.parse(readFileSync(`${folder}/package.json`, 'utf8')).exports;
  for (const {default: file} of [names['.'], names['./inline'], names['./proved']]) assert.ok(statSync(`${folder}/${file}`).isFile());
  if (folder !== fileURLToPath(new URL('..', import.meta.url)).slice(0, -1)) for (const file of readdirSync(folder)) {
    if (statSync(`${folder}/${file}`).isFile()) assert.equal(statSync(`${folder}/${file}`).mode & 0o777, 0o644, file);
  }
});

test('a module that returns something else is rejected when it is loaded', async () => {
  const {start} = await import(`${pathToFileURL(folder)}/runtime.js?again`), module = new WebAssembly.Module(readFileSync(`${folder}/cellarcove.wasm`));
  const found = () => new WebAssembly.Instance(module).exports;
  for (const name of ['gcd_i64', 'div_mod_floor_i64', 'fraction_add', 'fraction_cmp', 'plus_months', 'weekday', 'easter', 'sum_of_i64', 'shares_i64', 'fraction_from_text']) {
    for (const other of [() => {}, undefined]) {
      assert.throws(() => start({exports: {...found(), [`cellarcove_${name}`]: other}}), /^Error: cellarcove\.wasm is not as its table says: \w+ returns .* and not /, name);
    }
  }
  start({exports: found()});
});

test('the version is that of the package', () => {
  assert.equal(VERSION, JSON.parse(readFileSync(new URL('../package.json', import.meta.url), 'utf8')).version);
  assert.equal(BUILT_BY, process.execArgv.includes('--experimental-wasm-memory64') ? 'rattle' : 'cargo');
});
