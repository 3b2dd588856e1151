// Prints a program of the lines of code that the page docs/try shows, one for each call with its first arguments, or runs that of JavaScript.
//   node bindings/js/tests/lines.js C|C++|Python|Rust|JavaScript
// The program prints the name of each call, and its result if that is a number, `true` or `false`: `tools/cellarcove make tried` prints the same. A
// call that has no result ends it.
import {readFileSync} from 'node:fs';
import {join, resolve} from 'node:path';
import {fileURLToPath, pathToFileURL} from 'node:url';

const {CALLS, STRUCTS} = await import('../table.js');
const page = readFileSync(new URL('../../../docs/try/index.html', import.meta.url), 'utf8');
const code = page.slice(page.indexOf('// ---- made by tools/cellarcove'), page.indexOf('// ---- the end of the lines of code'));
const {KNOWN, linesOf} = new Function('CALLS', 'STRUCTS', `${code}\nreturn {KNOWN, linesOf};`)(CALLS, STRUCTS);
const language = process.argv[2];
const writes = (name) => CALLS[name][0][1].includes('&mut');
/** The first arguments; those of a call that writes are without a sign in its form without one. */
const textsOf = (name, large) => KNOWN[name][1].map((text) => large && writes(name) ? text.replaceAll('-', '') : text);
const line = (name, large = false) => new Map(linesOf(name, textsOf(name, large), large)).get(language);
/** The lines before the last one, and that one. */
const parts = (text) => [text.split('\n').slice(0, -1).join(' '), text.split('\n').at(-1)];
/** The calls whose result is a number, and those with a form for numbers from 2^63 on, which is called too. */
const isNumber = (name) => !/^weekday/.test(name) && /^[IU]64Answer$|^[iu](32|64|8)$|^bool$/.test(CALLS[name][0][2]) && !writes(name);
const forms = Object.keys(CALLS).sort().flatMap((name) => CALLS[name].map((_form, place) => [name, place > 0])
  .filter(([, large]) => !large || !/-\d/.test(textsOf(name, large).join(' ')) && name !== 'checkedDifference')); // which is below 0

const PROGRAMS = {
  JavaScript: async () => (await Promise.all(forms.map(async ([name]) => {
    const cellarcove = await import(pathToFileURL(join(resolve(process.env.CELLARCOVE ?? fileURLToPath(new URL('..', import.meta.url))), 'cellarcove.js')));
    const value = new Function(...Object.keys(cellarcove), `return ${line(name)};`)(...Object.values(cellarcove));
    return `${name}${isNumber(name) ? ` ${value}` : ''}`;
  }))).join('\n'),
  Python: () => ['import cellarcove', ...forms.map(([name]) => `x = ${line(name)}\nprint('${name}'${isNumber(name) ? ', str(int(x) if not isinstance(x, bool) else x).lower()' : ''})`)].join('\n'),
  Rust: () => ['#![allow(unused_imports)]', 'fn main() {', ...forms.map(([name, large]) => {
    const text = line(name, large), at = text.lastIndexOf('use cellarcove');
    const uses = at < 0 ? '' : text.slice(0, text.indexOf('\n', at) + 1), [before, last] = parts(text.slice(uses.length));
    return `{ ${uses} ${before} let x = format!("{:?}", ${last}); assert!(!x.starts_with("None") && !x.starts_with("Err"), "${name} {}", x);
      println!("${name}${isNumber(name) ? ' {}' : ''}"${isNumber(name) ? ', x.trim_start_matches("Some(").trim_start_matches("Ok(").trim_start_matches("At(").trim_end_matches(\')\')' : ''}); }`;
  }), '}'].join('\n'),
  C: () => ['#include <cellarcove.h>', '#include <inttypes.h>', '#include <stdio.h>', '#include <stdlib.h>', 'int main(void) {', ...forms.map(([name, large]) => {
    const [before, last] = parts(line(name, large)), [, , result] = CALLS[name].at(large ? 1 : 0), fields = STRUCTS[result] ?? [];
    const has = fields[0]?.[0] === 'status' ? 'if (x.status) exit(1);' : writes(name) ? 'if (x) exit(1);' : '';
    const value = fields.length ? 'x.value' : 'x';
    const shown = result === 'bool' ? `printf("${name} %s\\n", x ? "true" : "false");` : isNumber(name) ? `printf("${name} %" PRId64 "\\n", (int64_t)${value});` : `puts("${name}");`;
    return `{ ${before} __auto_type x = ${last}; ${has} (void)x; ${shown} }`;
  }), '}'].join('\n'),
  'C++': () => ['#include "cellarcove.hpp"', '#include <cstdlib>', '#include <iostream>', '#include <vector>', '#include <type_traits>',
    'template <class T> auto number(const T &x) { if constexpr (std::is_same_v<T, cellarcove::status>) { if (x != cellarcove::status::answer) std::exit(1); return 0; }',
    '  else if constexpr (std::is_class_v<T>) { if constexpr (std::is_constructible_v<bool, T>) { if (!x) std::exit(1); return *x; } else return x; } else return x; }',
    'int main() { std::cout << std::boolalpha;', ...forms.map(([name, large]) => {
      const [before, last] = parts(line(name, large));
      return `{ ${before} auto x = number(${last}); (void)x; std::cout << "${name}"${isNumber(name) ? ' << \' \' << +0 * 0' : ''} << '\\n'; }`.replace(" << +0 * 0", CALLS[name][0][2] === 'bool' ? ' << x' : ' << +x');
    }), '}'].join('\n'),
};
console.log(await PROGRAMS[language]());
