// Calls each export with the random arguments of `tools/cellarcove make checksums`, and has its lines: the same checksum means the same results.
//   node bindings/js/tests/sums.js         CELLARCOVE may name the folder of another package.
const TIMES = 20_000, LIST = 256; // and the bytes of a list
const SIZES = {i64: 8, u64: 8, i32: 4, u32: 4, u16: 2, u8: 1, bool: 1};
const GET = {i64: 'getBigUint64', u64: 'getBigUint64', i32: 'getInt32', u32: 'getUint32', u16: 'getUint16', u8: 'getUint8', bool: 'getUint8'};
const ENDS = [0n, 1n << 31n, 1n << 32n, 1n << 63n];
const of64 = (x) => BigInt.asUintN(64, x);
let state, sum, width;

/** The next number of splitmix64. */
function bits() {
  let z = state = of64(state + 0x9e3779b97f4a7c15n);
  z = of64((z ^ z >> 30n) * 0xbf58476d1ce4e5b9n);
  z = of64((z ^ z >> 27n) * 0x94d049bb133111ebn);
  return z ^ z >> 31n;
}

/** A number of any size, at times an end of a type or beside one. */
function any() {
  const choice = bits();
  if (choice % 16n === 0n) return of64(ENDS[choice / 16n % 4n] + choice / 64n % 5n - 2n);
  const number = bits() >> 64n - (width > 0n ? width : choice / 16n % 64n + 1n);
  return choice / 1024n % 4n === 0n ? of64(-number) : number;
}

/** A number below a bound, or one of any size once in so many times. */
function below(bound, times = 4n) {
  const choice = bits();
  return choice % times === 0n ? choice / times : choice / times % bound;
}

/** A number of an item, which is at times one of any size. */
const item = (small) => bits() % 16n === 0n ? any() : small();
const modulus = () => item(() => bits() % 12n + (bits() % 8n > 0n ? 1n : 0n));
const exponent = () => {
  const choice = bits();
  return choice % 4n === 0n ? choice / 4n : choice / 4n % 23n - 11n;
};
const NUMBERS = {i64: any, u64: any, i32: exponent, u32: () => below(70n), u16: () => below(370n), u8: () => below(56n, 8n)};
const STRUCTS_OF_ANY = {Fraction: () => [any(), any()], Date: () => [any(), bits() % 14n, bits() % 33n]};
const ITEMS = {
  i64: () => [item(() => bits() % 23n - 11n)], u64: () => [item(() => bits() % 12n)],
  I64Congruence: () => [bits() % 7n - 3n, modulus()], U64Congruence: () => [bits() % 4n, modulus()],
};

/** The bytes of a text of digits and signs, or of one that may be a date. */
function text() {
  const count = bits() % 8n;
  if (bits() % 2n === 0n) return [...'+2123-01-28'.slice(Number(bits() % 2n))].map((it) => BigInt(it.charCodeAt())).map((it) => it < 48n ? it : 48n + bits() % (it - 47n));
  return Array.from({length: Number(count)}, () => BigInt('01234567890//-+x'.charCodeAt(Number(bits() % 16n * (bits() % 16n) / 15n))));
}

const list = (kind) => kind === 'u8' ? text().map((byte) => [byte]) : Array.from({length: Number(bits() % 8n)}, ITEMS[kind]);

function add(number) {
  sum = of64((sum ^ of64(BigInt(number))) * 0x9e3779b97f4a7c15n);
  sum ^= sum >> 29n;
}

/** The lines for a package: its `runtime.js` and its table. */
export function sums({exports, BUILT_BY}, {CALLS, STRUCTS}) {
  const address = BUILT_BY === 'cargo' ? Number : BigInt, base = exports.memory.buffer.byteLength;
  try { exports.memory.grow(address(1)); } catch { exports.memory.grow(1); } // as in Node 20
  const view = new DataView(exports.memory.buffer), get = ({kind, at}, from) => view[GET[kind]](from + at, true);

  /** The size of a type, and its numbers with their places. */
  const layout = (kind) => {
    if (SIZES[kind]) return {size: SIZES[kind], align: SIZES[kind], leaves: [{kind, at: 0}]};
    const leaves = [];
    let end = 0, align = 1;
    for (const [name, inner] of STRUCTS[kind]) {
      const part = layout(inner), at = Math.ceil(end / part.align) * part.align;
      leaves.push(...part.leaves.map((leaf) => ({...leaf, isStatus: name === 'status', at: at + leaf.at})));
      [end, align] = [at + part.size, Math.max(align, part.align)];
    }
    return {size: Math.ceil(end / align) * align, align, leaves};
  };
  const write = (from, {leaves}, numbers) => leaves.forEach(({kind, at}, place) => {
    if (SIZES[kind] === 8) view.setBigUint64(from + at, of64(numbers[place]), true);
    else view.setUint8(from + at, Number(numbers[place]));
  });

  /** What makes the words of an argument at a place in memory. A list is mostly as long as those before it. */
  const argument = (kind, at) => {
    const found = /\[(\w+)\]$/.exec(kind)?.[1], whole = layout(found ?? kind);
    if (!found && SIZES[kind] === 8) return () => [BigInt.asIntN(64, NUMBERS[kind]())];
    if (!found && SIZES[kind]) return () => [Number(BigInt.asUintN(8 * SIZES[kind], NUMBERS[kind]()))];
    if (!found) return () => (write(at, whole, STRUCTS_OF_ANY[kind]()), [address(at)]);
    return (lengths) => {
      new Uint8Array(exports.memory.buffer, at, LIST).fill(0);
      const items = list(found);
      items.forEach((numbers, place) => write(at + whole.size * place, whole, numbers));
      const length = lengths.reduce((last, other) => bits() % 8n > 0n ? other : last, items.length);
      lengths.push(length);
      return [address(at), address(length)];
    };
  };

  /** The line of an export. */
  const line = ([symbol, parameters, result], place) => {
    const numbers = (kind) => /^[IU]64[CS]/.test(kind) ? STRUCTS[kind].map(([, type]) => type) : kind; // of a congruence or a schedule
    const kinds = parameters.split(' ').flatMap((it) => numbers(it.split(':')[1])), places = kinds.map((_, k) => base + LIST * (k + 1)), last = places.at(-1);
    const makers = kinds.map((kind, k) => argument(kind, places[k])), inMemory = result in STRUCTS, {leaves} = layout(result);
    const isWritten = parameters.includes('&mut'), raw = exports[`cellarcove_${symbol}`];
    let results = 0;
    [state, sum] = [BigInt(place + 1), 0n];
    for (let call = 0; call < TIMES; call++) {
      const choice = bits(), lengths = [];
      width = choice % 2n === 0n ? 0n : choice / 2n % 64n + 1n;
      const returned = raw(...inMemory ? [address(base)] : [], ...makers.flatMap((make) => make(lengths)));
      if (inMemory) for (const leaf of leaves) add(get(leaf, base));
      else add(returned);
      if (isWritten) for (let k = 0; k < lengths.at(-1); k++) add(view.getBigUint64(last + 8 * k, true));
      results += isWritten ? returned === 0 : !leaves[0].isStatus || view.getUint32(base, true) === 0;
    }
    return `cellarcove_${symbol}: ${results} results, checksum ${sum.toString(16).padStart(16, '0')}\n`;
  };
  return Object.values(CALLS).flat().map(line).join('');
}

if (globalThis.process?.argv[1]?.endsWith('sums.js')) {
  const {folder} = await import('./rows.js');
  process.stdout.write(sums(await import(`${folder}/runtime.js`), await import(`${folder}/table.js`)));
}
