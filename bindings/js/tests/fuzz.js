// Random calls for so many minutes, compared with Python.   node bindings/js/tests/fuzz.js [MINUTES [SEED]]
import {CALLS, judge, rows} from './rows.js';

const [minutes = '1', seed = '1'] = process.argv.slice(2);
const start = performance.now();
let calls = 0, wrong = 0;
for await (const row of rows(seed, 40, Math.round(60 * Number(minutes)))) {
  const [said, count] = judge(row);
  calls += count;
  if (said && ++wrong <= 20) console.log(said);
}
const spent = (performance.now() - start) / 60_000, forms = Object.values(CALLS).flat().length;
console.log(`seed ${seed}: ${calls.toLocaleString('en')} calls of ${forms} exports in ${spent.toFixed(1)} minutes; ${wrong} are wrong`);
process.exitCode = wrong === 0 && calls > 0 ? 0 : 1;
