// Bundles a program with esbuild, with rollup and with webpack, and runs it.   node --test bindings/js/tests/bundles.js
import assert from 'node:assert/strict';
import {execFileSync, spawnSync} from 'node:child_process';
import {copyFileSync, existsSync, mkdirSync, mkdtempSync, readFileSync, rmSync, symlinkSync, writeFileSync} from 'node:fs';
import {tmpdir} from 'node:os';
import {join} from 'node:path';
import {after, test} from 'node:test';
import {folder} from './rows.js';

const work = mkdtempSync(join(tmpdir(), 'bundles-')), has = (program) => spawnSync(program, ['--version']).status === 0;
mkdirSync(join(work, 'node_modules'));
symlinkSync(folder, join(work, 'node_modules/cellarcove'));
writeFileSync(join(work, 'package.json'), '{"type": "module"}');
after(() => rmSync(work, {recursive: true}));

/** A program of one line, bundled: the file of the bundle. */
function bundled(line, name, make) {
  writeFileSync(join(work, 'main.js'), line);
  make(join(work, 'main.js'), join(work, name));
  return join(work, name);
}
const esbuild = (...words) => (from, to) => execFileSync('esbuild', [from, '--bundle', '--minify', `--outfile=${to}`, '--log-level=error', ...words], {cwd: work});
const rollup = (...words) => (from, to) => execFileSync('rollup', [from, '-o', to, '--silent', ...words], {cwd: work});
const words = process.execArgv.filter((word) => word.startsWith('--experimental')); // as for the WebAssembly that Rattle makes
const printed = (file) => spawnSync('node', [...words, file], {encoding: 'utf8'});
const {BUILT_BY} = await import(join(folder, 'cellarcove.js'));
const CALL = (from) => `import {gcd} from '${from}'; console.log(String(gcd(12, 18)));`;

test('esbuild', {skip: !has('esbuild')}, () => {
  for (const [format, name] of [['iife', 'a.cjs'], ['cjs', 'b.cjs'], ['esm', 'c.mjs']]) {
    assert.equal(printed(bundled(CALL('cellarcove/inline'), name, esbuild(`--format=${format}`, '--target=es2020'))).stdout, '6\n', format);
  }
  const file = bundled(CALL('cellarcove'), 'd.mjs', esbuild('--format=esm'));
  assert.match(printed(file).stderr, /cellarcove\.wasm: .*: a bundler may have left the file behind: copy it there, or import cellarcove\/inline/);
  copyFileSync(join(folder, 'cellarcove.wasm'), join(work, 'cellarcove.wasm'));
  assert.equal(printed(file).stdout, '6\n');
  const text = readFileSync(file, 'utf8');
  assert.ok(text.includes('gcd_i64') && !text.includes('chinese_remainder') && !text.includes('binomial'));
  assert.ok(readFileSync(bundled("import {gcd} from 'cellarcove';", 'e.mjs', esbuild('--format=esm'))).length < 100);
  for (const [line, said] of [["import {Fraction} from 'cellarcove'; console.log(`${Fraction.from('6/4')}`);", '3/2\n'],
    ["import {fractionFromDecimal} from 'cellarcove'; console.log(`${fractionFromDecimal('19.99')}`);", '1999/100\n'],
    ["import {BUILT_BY} from 'cellarcove'; console.log(BUILT_BY);", `${BUILT_BY}\n`]]) assert.equal(printed(bundled(line, 'f.mjs', esbuild('--format=esm'))).stdout, said);
});

test('rollup', {skip: !has('rollup')}, () => {
  const path = (name) => join(folder, name);
  copyFileSync(path('cellarcove.wasm'), join(work, 'cellarcove.wasm'));
  for (const [line, name, format] of [[CALL(path('inline.js')), 'g.mjs', 'es'], [CALL(path('inline.js')), 'h.cjs', 'cjs'], [CALL(path('cellarcove.js')), 'i.mjs', 'es']]) {
    const file = bundled(line, name, rollup('-f', format)), text = readFileSync(file, 'utf8');
    assert.equal(printed(file).stdout, '6\n', name);
    assert.ok(text.includes('gcd_i64') && !text.includes('chinese_remainder') && !text.includes('binomial'), name);
  }
});

test('webpack', {skip: !has('webpack')}, () => {
  for (const [from, target, format] of [['cellarcove', 'node', 'commonjs2'], ['cellarcove', 'node', 'module'], ['cellarcove/inline', 'web', 'var'], ['cellarcove/proved', 'node', 'module']]) {
    const name = `${from.replace('/', '-')}-${format}`, isModule = format === 'module', file = join(work, name, isModule ? 'main.mjs' : 'main.cjs');
    writeFileSync(join(work, 'main.js'), CALL(from));
    writeFileSync(join(work, 'webpack.config.cjs'), `module.exports = ${JSON.stringify({mode: 'production', target, entry: './main.js', experiments: {outputModule: isModule},
      output: {path: join(work, name), filename: isModule ? 'main.mjs' : 'main.cjs', library: {type: format, ...format === 'var' && {name: 'bundle'}}}})};`);
    if (from === 'cellarcove/proved' && !existsSync(join(folder, 'cellarcove-proved.wasm'))) continue;
    execFileSync('webpack', ['--config', 'webpack.config.cjs'], {cwd: work, stdio: 'ignore'});
    assert.equal(printed(file).stdout, '6\n', name);
    const text = readFileSync(file, 'utf8');
    assert.ok(text.includes('gcd_i64') && !text.includes('chinese_remainder') && !text.includes('binomial'), name);
  }
});
