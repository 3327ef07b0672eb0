/* SPDX-License-Identifier: MIT */
/* Copyright (c) 2026 the maintainers of base62 for Rattle */

/* The library. Its calls are hidden: no other library of the process sees them, or puts its own in their place. */
#ifdef __GNUC__
#pragma GCC visibility push(hidden)
#endif
#include <base62.h>
#ifdef __GNUC__
#pragma GCC visibility pop
#endif
#include <base62.c>
