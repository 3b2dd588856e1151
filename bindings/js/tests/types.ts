// What compiles, and what does not: each line below `@ts-expect-error` has an error.
import {cbrt, dayOfYear, daysInMonth, Decimal, easter, Fraction, fractionFromDecimal, ilog, lcm, ready, sqrtRem, sumOf, tryFractionFromDecimal, tryGcd, weekdayOfDate, fractionAdd, fractionToDecimal, gcd, gcdOf, isLeapYear, isoWeek, chineseRemainder, nextCommonSolutionOf, nextMeeting, Schedule, nthRoot, PlainDate, plusMonths, Refused, shares, Status, tryLcm, weekday} from 'cellarcove';

const attempt = tryLcm(1, 2);
const a: bigint = gcd(12n, 18);
// @ts-expect-error
const x1: number = gcd(12n, 18);
const b: {value: BigInt64Array; status: Uint8Array} = gcd(BigInt64Array.of(1n), 2);
// @ts-expect-error
gcd(BigInt64Array.of(1n), BigUint64Array.of(2n));
const c: bigint = attempt.status === Status.ANSWER ? attempt.value : 0n;
// @ts-expect-error
const x3: bigint = tryLcm(1, 2).value;
const d: PlainDate = plusMonths('2024-01-31', 1);
// @ts-expect-error
plusMonths(20240131, 1);
const e: Uint8Array = plusMonths({year: BigInt64Array.of(2024n), month: 1, day: 31}, 1).month;
// @ts-expect-error
const x5: number = plusMonths('2024-01-31', 1).year;
const f: bigint = isoWeek(d).yearOfWeek;
// @ts-expect-error
gcd('1', 2);
const g: string = `${fractionAdd('1/2', [1, 3])}`;
// @ts-expect-error
fractionAdd({num: 1}, 2);
const h: bigint[] = shares(1n, [1, 2]);
// @ts-expect-error
shares(1n, 2);
const i: Uint8Array = isLeapYear(BigInt64Array.of(2024n));
// @ts-expect-error
isLeapYear(Float64Array.of(2024));
const j: bigint = gcdOf(BigInt64Array.of(1n));
// @ts-expect-error
gcdOf(['1']);
const k: BigUint64Array = nthRoot(BigUint64Array.of(1n), 2).value;
// @ts-expect-error
nthRoot(1);
const l: bigint = nextCommonSolutionOf(10, [{residue: 1, modulus: 4}, {residue: 3, modulus: 6n}]);
// @ts-expect-error
nextCommonSolutionOf(10, [1, 4]);
// @ts-expect-error
nextCommonSolutionOf(10, [[1, 4]]);
const bus: Schedule = {first: 1, period: 4}, l2: bigint = nextMeeting(10, bus, {first: 3n, period: 6n}) + chineseRemainder({residue: 1, modulus: 4}, {residue: 3, modulus: 6}).step;
// @ts-expect-error
nextMeeting(10, 1, 4, 3, 6);
// @ts-expect-error
nextMeeting(10, bus, [3, 6]);
// @ts-expect-error
nextMeeting(10, bus, {first: 3, modulus: 6});
// @ts-expect-error
nextMeeting(10, bus, {first: 3, period: 6, id: 1});
// @ts-expect-error
nextMeeting(bus, 10, bus);
// @ts-expect-error
chineseRemainder({residue: 1, modulus: 4}, {residue: 3, modulus: 6}).step = 1n;
const l3: BigInt64Array = nextMeeting(BigInt64Array.of(10n), bus, {first: BigInt64Array.of(3n), period: 6}).value;
const m: number = weekday(4) + easter(2024).day;
// @ts-expect-error
new PlainDate('2024-01-01');
const n: 1 | 2 | 3 | 4 | 5 | 6 = new Refused(Status.NO_DATE).status;
// @ts-expect-error
new Refused(0);
const o: Decimal = fractionToDecimal('1/20', 2);
// @ts-expect-error
const x15: string = fractionToDecimal('1/20', 2);
const q: BigUint64Array = fractionToDecimal({num: BigInt64Array.of(1n), den: 20}, 2).part;
// @ts-expect-error
new Decimal(true, 0n, 5n, 2);
const r: number = daysInMonth(2024, 2) + weekdayOfDate(d) + ilog(1000, 10) + dayOfYear(d) + sqrtRem(150).rest + cbrt(27);
// @ts-expect-error
const x17: bigint = daysInMonth(2024, 2);
const s: Uint8Array = daysInMonth(BigInt64Array.of(2024n), 2).value;
const t: -1 | 0 | 1 = PlainDate.compare(d, new PlainDate(2024, 1n, 31));
// @ts-expect-error
PlainDate.compare(d);
const u: PlainDate[] = [d, easter(2024)].sort(PlainDate.compare);
const v: bigint = gcd(1, 2, 3) + gcd([1, 2n]) + lcm() + sumOf(1, 2) + gcdOf(1, 2);
// @ts-expect-error
gcd(1, 2, '3');
const w: Fraction = fractionFromDecimal('19.99');
// @ts-expect-error
fractionFromDecimal(19.99);
const y: boolean = d.equals('2024-01-31') && tryFractionFromDecimal('1').status === 0 && tryGcd(1, 2, 3).status === 0;
const z: Promise<void> = ready, code: string = new Refused(Status.NO_DATE).code;
// @ts-expect-error
new Refused(Status.NO_DATE).code === 'ANSWER';
// @ts-expect-error
d.month = 5;
