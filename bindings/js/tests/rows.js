// Compares the module with rows of `tools/cellarcove make rows`, which Python computes. CELLARCOVE may name the folder of another package.
import {spawn} from 'node:child_process';
import {resolve} from 'node:path';
import {createInterface} from 'node:readline';
import {fileURLToPath, pathToFileURL} from 'node:url';

export const folder = resolve(process.env.CELLARCOVE ?? fileURLToPath(new URL('..', import.meta.url)));
export const cellarcove = await import(pathToFileURL(`${folder}/cellarcove.js`));
export const {CALLS, STRUCTS} = await import(pathToFileURL(`${folder}/table.js`));
const ARRAYS = {i64: BigInt64Array, u64: BigUint64Array, i32: Int32Array, u32: Uint32Array, u16: Uint16Array, u8: Uint8Array};

/** The rows of a seed, one by one. */
export async function* rows(...words) {
  const tool = fileURLToPath(new URL('../../../tools/cellarcove', import.meta.url));
  const child = spawn('python3', [tool, 'make', 'rows', ...words.map(String)], {stdio: ['ignore', 'pipe', 'inherit']});
  const ended = new Promise((done) => child.on('close', done));
  for await (const line of createInterface({input: child.stdout})) yield JSON.parse(line);
  if (await ended !== 0) throw new Error('tools/cellarcove make rows has failed');
}

export const camel = (name) => name.replace(/_(.)/g, (_, letter) => letter.toUpperCase());
export const parametersOf = (name, form) => CALLS[name].find(([symbol]) => !form || !/_[iu]64$/.test(symbol) || symbol.endsWith(form))[1]
  .split(' ').map((it) => it.split(':')[1]);

const isPair = (kind) => /^.64(Congruence|Schedule)$/.test(kind); // which has names alone

// A number is passed as a BigInt and as a number, and a struct as an object, an array and at times a text.
let turn = 0;
const number = (text) => turn++ % 3 === 0 && Number.isSafeInteger(Number(text)) ? Number(text) : BigInt(text);
const struct = (texts, kind) => {
  const numbers = texts.map(number);
  return turn++ % 2 === 0 && !isPair(kind) ? numbers : Object.fromEntries(STRUCTS[kind].map(([name], place) => [name, numbers[place]]));
};
export const argument = (given, kind) => {
  const item = /\[(\w+)\]$/.exec(kind)?.[1];
  if (item === 'u8') return given;
  if (item && Array.isArray(given)) return given.map((it) => argument(it, item));
  return kind in STRUCTS && Array.isArray(given) ? struct(given, kind) : number(given);
};

/** The numbers of a result. A week has its year first. */
const numbers = (value) => typeof value !== 'object' ? [BigInt(value)] : Array.isArray(value) ? value.flatMap(numbers)
  : 'yearOfWeek' in value ? [BigInt(value.yearOfWeek), BigInt(value.weekOfYear)] : Object.values(value).flatMap(numbers);

/** Whether the numbers of a result are those that are wanted. Of Bezout's pairs a small one is. */
const agrees = (name, given, found, wanted) => {
  if (name !== 'extendedGcd' || found.length !== 3 || wanted.length === 0) return found.join() === wanted.join();
  const [x, y] = given.map(BigInt), [gcd, p, q] = found, size = (z) => z < 0n ? -z : z;
  return String(gcd) === wanted[0] && p * x + q * y === gcd && (size(p) <= 1n || 2n * size(p) * gcd <= size(y)) && (size(q) <= 1n || 2n * size(q) * gcd <= size(x));
};

const shown = (row, found) => `${row[0]} ${row[1]} ${JSON.stringify(row[2]).slice(0, 200)}: ${found}, and not ${`status ${row[3]}, ${row[4]}`.slice(0, 200)}`;

/** What is wrong in a row of numbers, or an empty text: the call, and its form without exceptions. */
function ofNumbers(row, functions) {
  const [call, form, given, status, wanted] = row, name = camel(call), kinds = parametersOf(name, form);
  const taken = given.map((it, place) => argument(it, kinds[place]));
  const attempt = functions[camel(`try_${call}`)](...taken);
  let value, thrown = 0;
  try {
    value = functions[name](...taken);
  } catch (error) {
    if (!(error instanceof cellarcove.Refused) || !(error instanceof RangeError)) throw error;
    thrown = error.status;
  }
  if (thrown !== attempt.status || String(value) !== String(attempt.value)) return shown(row, `${thrown} ${value} and ${attempt.status} ${attempt.value}`);
  const found = thrown === 0 ? numbers(value) : [];
  return thrown === status && agrees(name, given, found, wanted) ? '' : shown(row, `status ${thrown}, ${found}`);
}

/** The arrays of an argument, or the number of the first item. */
function columns(items, kind, isNumber) {
  if (!(kind in STRUCTS)) return isNumber ? number(items[0]) : ARRAYS[kind].from(items, kind.endsWith('64') ? BigInt : Number);
  return Object.fromEntries(STRUCTS[kind].map(([name, inner], place) => [name, columns(items.map((it) => it[place]), inner, isNumber)]));
}

/** What is wrong in a row of arrays, the last of which is at times a number. */
function ofArrays(row, functions) {
  const [call, form, items, statuses, wanted] = row, name = camel(call), kinds = parametersOf(name, form);
  const isNumber = kinds.length > 1 && turn++ % 3 === 0;
  const taken = kinds.map((kind, place) => columns(items.map((it) => it[place]), kind, isNumber && place === kinds.length - 1));
  const result = functions[name](...taken), {status, ...values} = ArrayBuffer.isView(result) ? {value: result} : result;
  const arrays = 'yearOfWeek' in values ? [values.yearOfWeek, values.weekOfYear] : Object.values(values);
  for (const [place, given] of items.entries()) {
    if (isNumber && String(given.at(-1)) !== String(items[0].at(-1))) continue;
    const found = arrays.map((array) => BigInt(array[place])), isRefused = statuses[place] !== 0;
    if ((status?.[place] ?? 0) !== statuses[place] || !(isRefused ? found.every((x) => x === 0n) : agrees(name, given, found, wanted[place]))) {
      return shown([call, form, given, statuses[place], wanted[place]], `status ${status?.[place]}, ${found} in arrays`);
    }
  }
  return '';
}

/** What is wrong in a row, or an empty text; and the number of calls. */
export function judge(row, functions = cellarcove) {
  try {
    return row[1] === '' ? [ofNumbers(row, functions), 2] : [ofArrays(row, functions), row[2].length];
  } catch (error) {
    return [shown(row, error.stack), 1];
  }
}
