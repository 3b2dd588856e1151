// SPDX-FileCopyrightText: 2026 The Cellarcove authors
// SPDX-License-Identifier: MIT OR Apache-2.0
import {begin} from './load.js';
import {start} from './runtime.js';
import {TEXT} from './wasm.js';
export * from './runtime.js';

const bytes = Uint8Array.from(atob(TEXT), (letter) => letter.charCodeAt(0));

/** Begins at once, or, where a page may compile only small modules at once, a little later. */
function soon() {
  try {
    return Promise.resolve(begin(bytes));
  } catch (error) {
    if (!(error instanceof RangeError)) throw error;
    return WebAssembly.instantiate(bytes).then(({instance}) => start(instance));
  }
}

/** A promise that is kept when calls can be made. */
export const ready = soon();
