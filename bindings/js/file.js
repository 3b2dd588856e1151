// SPDX-FileCopyrightText: 2026 The Cellarcove authors
// SPDX-License-Identifier: MIT OR Apache-2.0
import {load} from './load.js';
export * from './runtime.js';

/** A promise that is kept when calls can be made: on a page await it, and elsewhere it is kept from the start. */
export const ready = load(new URL('cellarcove.wasm', import.meta.url));
