// SPDX-FileCopyrightText: 2026 The Cellarcove authors
// SPDX-License-Identifier: MIT OR Apache-2.0
// Loads the WebAssembly: at once in Node and in a worker, so that no message is lost there, and on a page as `ready` says.
import {start} from './runtime.js';

const FAILED = 'a bundler may have left the file behind: copy it there, or import cellarcove/inline';

/** The bytes of a file, if this place can read at once. */
function bytesOf(url) {
  if (url.protocol === 'file:' && globalThis.process?.getBuiltinModule) return process.getBuiltinModule('node:fs').readFileSync(url);
  if (typeof document !== 'undefined' || typeof XMLHttpRequest === 'undefined') return null; // such as a page or a service worker
  const request = new XMLHttpRequest();
  request.open('GET', url, false);
  request.responseType = 'arraybuffer';
  request.send();
  if (request.status !== 200) throw new Error(`${request.status} ${request.statusText}`);
  return request.response;
}

async function fetched(url) {
  const response = await fetch(url);
  if (!response.ok) throw new Error(`${response.status} ${response.statusText}`);
  return response.arrayBuffer();
}

/** Begins with bytes at once. */
export const begin = (bytes) => start(new WebAssembly.Instance(new WebAssembly.Module(bytes)));

/** Begins with a file, and returns a promise that is kept when calls can be made. */
export function load(url) {
  const failed = (cause) => new Error(`${url}: ${cause.message}: ${FAILED}`, {cause});
  let bytes;
  try {
    bytes = bytesOf(url);
  } catch (cause) {
    throw failed(cause);
  }
  if (bytes) return Promise.resolve(begin(bytes));
  return fetched(url).catch((cause) => Promise.reject(failed(cause))).then((found) => WebAssembly.instantiate(found)).then(({instance}) => start(instance));
}
