// SPDX-FileCopyrightText: 2026 The Cellarcove authors
// SPDX-License-Identifier: MIT OR Apache-2.0
export * from './cellarcove.js';
