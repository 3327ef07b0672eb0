// SPDX-License-Identifier: MIT
// Copyright (c) 2026 the maintainers of base62 for Rattle

//! Where a line ends. The source looks at 64 bytes at a time by `std::simd`, which stable Rust lacks.

const ONES: u64 = u64::from_le_bytes([1; 8]);

/// The index of the first byte 10.
pub(crate) fn line_end(bytes: &[u8]) -> Option<usize> {
    let mut index = 0;
    // Eight bytes at a time: of a byte that becomes 0, the highest bit is set in `ends`. Others may be set behind it.
    while let Some(eight) = bytes.get(index..index + 8) {
        let differences = u64::from_le_bytes(eight.try_into().unwrap()) ^ (ONES * 10);
        let ends = differences.wrapping_sub(ONES) & !differences & (ONES * 128);
        if ends != 0 {
            return Some(index + ends.trailing_zeros() as usize / 8);
        }
        index += 8;
    }
    let place = bytes[index..].iter().position(|byte| *byte == b'\n');
    place.map(|place| index + place)
}
