// Types into the page docs/try in a headless browser, and reads.   [BROWSER=firefox] node --test bindings/js/tests/page.js
import assert from 'node:assert/strict';
import {existsSync, readFileSync} from 'node:fs';
import {createServer} from 'node:http';
import {join, resolve} from 'node:path';
import {after, before, test} from 'node:test';
import {fileURLToPath} from 'node:url';
import {opened} from './browser.js';

const folder = resolve(process.env.CELLARCOVE ?? fileURLToPath(new URL('..', import.meta.url)));
const docs = existsSync(join(folder, 'index.html')) ? join(folder, '..') : fileURLToPath(new URL('../../../docs', import.meta.url));
const reference = process.env.REFERENCE ?? join(folder, 'reference');
const TYPES = {html: 'text/html', js: 'text/javascript', wasm: 'application/wasm', md: 'text/plain'};
const missing = [];
// What the server has besides: workers, and pages under a policy, whose title says what became of a call.
const OWN = {
  '/worker.js': ['js', "import {gcd} from '/try/cellarcove.js'; self.onmessage = ({data}) => self.postMessage(String(gcd(...data)));"],
  '/inline-worker.js': ['js', "import {gcd} from '/try/inline.js'; self.onmessage = ({data}) => self.postMessage(String(gcd(...data)));"],
  '/called.js': ['js', "import {gcd, ready} from '/try/cellarcove.js'; ready.then(() => gcd(12, 18), (error) => error.cause?.name ?? error.name).then((it) => { document.title = it; });"],
  '/inlined.js': ['js', "import {gcd, ready} from '/try/inline.js'; ready.then(() => { document.title = gcd(12, 18); });"],
  '/early.js': ['js', "import {gcd} from '/try/cellarcove.js'; try { document.title = gcd(12, 18); } catch (error) { document.title = error.message; }"],
  '/open.html': ['html', '<!doctype html><script type="module" src="/called.js"></script>', "script-src 'self' 'wasm-unsafe-eval'"],
  '/shut.html': ['html', '<!doctype html><script type="module" src="/called.js"></script>', "script-src 'self'"],
  '/inline.html': ['html', '<!doctype html><script type="module" src="/inlined.js"></script>'],
  '/early.html': ['html', '<!doctype html><script type="module" src="/early.js"></script>'],
};

/** The page with the package beside it, and the reference. */
const server = createServer(({url}, response) => {
  const path = new URL(url, 'http://localhost').pathname, file = path.endsWith('/') ? `${path}index.html` : path;
  if (file in OWN) {
    const [type, text, policy] = OWN[file];
    response.writeHead(200, {'content-type': TYPES[type], ...policy && {'content-security-policy': policy}}).end(text);
    return;
  }
  try {
    const found = readFileSync(file === '/sums.js' ? new URL('sums.js', import.meta.url)
      : file.startsWith('/try/reference/') ? join(reference, file.slice(15))
        : file.startsWith('/try/') && !file.endsWith('.html') ? join(folder, file.slice(5)) : join(docs, file));
    response.writeHead(200, {'content-type': TYPES[file.split('.').pop()]}).end(found);
  } catch {
    missing.push(file);
    response.writeHead(404).end();
  }
});

let browser;
const evaluate = (expression) => browser.evaluate(expression);
const textOf = (id) => evaluate(`document.getElementById('${id}').innerText`);

/** Waits until an expression is true. */
async function until(expression) {
  for (let tries = 0; tries < 1200; tries++) {
    if (await evaluate(expression)) return;
    await new Promise((done) => setTimeout(done, 50));
  }
  assert.fail(`it does not become true: ${expression}`);
}

/** Goes to an address of the page. Chromium passes over some of them, if there are hundreds in ten seconds. */
const goTo = (hash) => until(`(location.hash = '${hash}', location.hash === '${hash}')`);

before(async () => {
  await new Promise((done) => server.listen(0, '127.0.0.1', done));
  browser = await opened();
  await browser.visit(`http://127.0.0.1:${server.address().port}/try/`);
  await until(`document.querySelector('#contract pre') !== null`);
});

after(async () => {
  await browser?.close();
  server.close();
});

test('numbers are typed by keyboard alone', async () => {
  assert.equal(await evaluate('document.activeElement.id'), 'call');
  await browser.tab();
  await browser.type('12');
  await browser.tab();
  await browser.type('18');
  assert.equal(await textOf('result'), 'lcm(12, 18) = 36');
  await browser.type('x');
  assert.equal(await textOf('result'), '“18x” is no integer');
});

test('numbers are not joined at spaces', async () => {
  for (const [fragment, said] of [['gcdOf&12 18', '“12 18” is no integer'], ['shares&100&1 1 1', '“1 1 1” is no integer'], ['gcdOf&12, 18 ', 'gcdOf([12, 18 ]) = 6'],
    ['lcm&2^63 - 1& 1', 'lcm(2^63 - 1,  1) = 9223372036854775807'], ['lcm&1_000&1', 'lcm(1_000, 1) = 1000'], ['lcm&- 4&6', 'lcm(- 4, 6) = 12']]) {
    await evaluate(`location.hash = '#${fragment.split('&').map(encodeURIComponent).join('&')}'`);
    await until(`document.getElementById('result').textContent === '${said}'`);
  }
});

test('an address that names nothing says so', async () => {
  for (const [fragment, name] of [['toString', 'toString'], ['%', '%'], ['lcmm&1&2', 'lcmm'], ['__proto__', '__proto__']]) {
    await evaluate(`location.hash = '#${fragment}'`);
    await until(`document.getElementById('result').textContent === 'There is no call “${name}”, which the address names. Choose one above.'`);
  }
});

test('a worker gets a message that is posted at once', async () => {
  for (const file of ['/worker.js', '/inline-worker.js']) {
    const found = await evaluate(`Promise.all(Array.from({length: 4}, () => new Promise((done) => {
      const worker = new Worker('${file}', {type: 'module'});
      worker.onmessage = ({data}) => done(data);
      worker.onerror = ({message}) => done(message);
      worker.postMessage([12, 18]);
      setTimeout(done, 60_000, 'lost');
    })))`);
    assert.deepEqual(found, ['6', '6', '6', '6'], file);
  }
});

test('a page awaits ready, and its policy needs wasm-unsafe-eval', async () => {
  for (const [file, said] of [['/open.html', '6'], ['/shut.html', 'CompileError'], ['/inline.html', '6'], ['/early.html', 'cellarcove.wasm is not loaded yet: await ready before the first call']]) {
    const found = await evaluate(`(async () => {
      const frame = document.body.appendChild(Object.assign(document.createElement('iframe'), {src: '${file}'}));
      for (let tries = 0; tries < 400 && !frame.contentDocument?.title; tries++) await new Promise((done) => setTimeout(done, 50));
      return frame.contentDocument?.title;
    })()`);
    assert.equal(found, said, file);
  }
});

test('the examples show the result or the reason', async () => {
  const results = [];
  for (let place = 0; place < 9; place++) {
    await evaluate(`new Promise((done) => {
      const link = document.querySelectorAll('#examples a')[${place}];
      if (link.hash === location.hash) return done();
      addEventListener('hashchange', () => done(), {once: true}); // after the page's own listener
      link.click();
    })`);
    results.push(await textOf('result'));
  }
  const notFitting = (given) => `no result: NOT_FITTING: ${given}: the result does not fit its type, or a part of a fraction, once reduced, does not`;
  assert.deepEqual(results, ['lcm(9223372036854775807, 2) = 18446744073709551614', notFitting('x is -9223372036854775808, y is 0'),
    notFitting('n is 68, k is 34'), 'modFloor(-9223372036854775808, -1) = 0', notFitting('a is [730087, 730000], exponent is 4'),
    'divModFloor(-8, 3) = quotient -3, remainder 1', 'shares(-100, [1, 1, 1]) = [-34, -33, -33]', 'powerModulo(3, 200, 13) = 9',
    'no result: NO_SOLUTION: a is 4, m is 6: no number solves the congruences']);
});

test('each call can be chosen, and has its contract in words and in symbols', async () => {
  const names = await evaluate(`[...document.getElementById('call').options].map((it) => it.value)`);
  for (const name of names) {
    await evaluate(`(() => { const call = document.getElementById('call'); call.value = '${name}'; call.dispatchEvent(new Event('change')); })()`);
    const symbol = `cellarcove_${name.replace(/[A-Z]/g, (letter) => `_${letter.toLowerCase()}`)}`;
    await until(`document.querySelector('#contract pre')?.innerText.includes('fn ${symbol}')`);
    assert.match(await textOf('contract'), /^[A-Z`][\s\S]*ensures/, name);
    assert.match(await textOf('result'), /= |^no result: /, name);
  }
});

test('each call has a line of code in each language, if its arguments are right', async () => {
  const names = await evaluate(`[...document.getElementById('call').options].map((it) => it.value)`), languages = ['Rust', 'Python', 'JavaScript', 'C', 'C++', 'Rattle'];
  assert.equal(new Set(names).size, names.length);
  for (const name of names) {
    await evaluate(`(() => { const call = document.getElementById('call'); call.value = '${name}'; call.dispatchEvent(new Event('change')); })()`);
    assert.deepEqual(await evaluate(`[...document.querySelectorAll('#lines dt')].map((it) => it.innerText)`), languages, name);
  }
  await goTo('#gcd&12&18');
  await until(`document.getElementById('result').textContent === 'gcd(12, 18) = 6'`);
  assert.deepEqual(await evaluate(`[...document.querySelectorAll('#lines dd')].map((it) => it.innerText)`), ['cellarcove::checked::gcd(12i64, 18)', 'cellarcove.gcd(12, 18)',
    'gcd(12, 18)', 'cellarcove_gcd_i64(12, 18)', 'cellarcove::gcd(12, 18)', 'num_integer::checked::gcd(12i64, 18)']);
  await goTo('#gcd&12&x');
  await until(`document.querySelectorAll('#lines dt').length === 0`);
});

test('a definition opens', async () => {
  await evaluate(`location.hash = '#lcm&2^63&3'`);
  await until(`document.querySelector('#contract pre')?.innerText.includes('cellarcove_lcm_u64')`);
  await evaluate(`document.querySelectorAll('#contract summary')[1].click()`);
  await until(`document.querySelector('#contract details[open] pre')?.innerText.includes('IsLeastCommonMultiple (a b l')`);
});

test('each export returns what it does on x86-64', {skip: !process.env.SUMS}, async () => {
  const found = await evaluate(`(async () => {
    const {sums} = await import('/sums.js');
    return sums(await import('/try/runtime.js'), await import('/try/table.js'));
  })()`);
  assert.equal(found, readFileSync(process.env.SUMS, 'utf8'));
});

test('the page asks for no file that is missing, and has no error', () => {
  assert.deepEqual([missing, browser.errors], [[], []]);
});
