// SPDX-License-Identifier: MIT
// Copyright (c) 2026 the maintainers of base62 for Rattle
// The types are those of the CommonJS file.
export * from './index.cjs';
export * as default from './index.cjs';
