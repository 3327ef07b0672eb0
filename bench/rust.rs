//! Times the Rust crate beside a plain loop and, with the feature `theirs`, the crate `base62`: see run.

use std::hint::black_box;
use std::time::Instant;

const CHARACTERS: &[u8; 62] = b"0123456789ABCDEFGHIJKLMNOPQRSTUVWXYZabcdefghijklmnopqrstuvwxyz";

fn encode_in_loop(mut number: u128, width: usize) -> [u8; 22] {
    let (mut text, mut start) = ([0; 22], 22);
    while number != 0 || start > 22 - width {
        start -= 1;
        text[start] = CHARACTERS[(number % 62) as usize];
        number /= 62;
    }
    text.copy_within(start.., 0);
    text
}

/// Times the call for all values, and prints a row.
macro_rules! time {
    ($kind:expr, $row:literal, $values:expr, $value:ident => $call:expr) => {
        let start = Instant::now();
        for $value in black_box($values) {
            let _ = black_box($call);
        }
        let time = start.elapsed().as_nanos() as f64 / $values.len() as f64;
        println!(concat!("Rust\t{}\t", $row, "\t{}"), $kind, time);
    };
}

fn main() {
    let given: Vec<String> = std::env::args().collect();
    let kind = given[1].as_str();
    let input = std::io::read_to_string(std::io::stdin()).unwrap();
    let texts = &Vec::from_iter(input.lines());
    let numbers = &Vec::from_iter(texts.iter().map(|text| ours::decode(text).unwrap()));
    let uuids = &Vec::from_iter(numbers.iter().map(|number| number.to_be_bytes()));
    let mut digits = [0; 256];
    (0..62).for_each(|digit| digits[CHARACTERS[digit] as usize] = digit as u128);
    let decode_in_loop = |text: &str| text.bytes().fold(0u128, |n, c| n * 62 + digits[c as usize]);
    assert!(
        numbers
            .iter()
            .zip(texts)
            .all(|(n, text)| decode_in_loop(text) == *n
                && encode_in_loop(*n, text.len()).starts_with(text.as_bytes()))
    );
    let mut buffer = [0; 22];
    for _ in 0..20 * given[2].parse::<u32>().unwrap() {
        if kind == "UUID" {
            time!(kind, "encode\tbase62", uuids, id => ours::encode_key(u128::from_be_bytes(*id)));
            time!(kind, "encode\ta plain loop", uuids, id => encode_in_loop(u128::from_be_bytes(*id), 22));
            time!(kind, "decode\tbase62", texts, text => ours::decode_key(text).unwrap().to_be_bytes());
            time!(kind, "decode\ta plain loop", texts, text => decode_in_loop(text).to_be_bytes());
            continue;
        }
        time!(kind, "encode\tbase62", numbers, n => (ours::encode_bytes(*n, &mut buffer), black_box(&buffer)));
        time!(kind, "encode\ta plain loop", numbers, n => encode_in_loop(*n, 1));
        time!(kind, "decode\tbase62", texts, text => ours::decode(text));
        time!(kind, "decode\ta plain loop", texts, text => decode_in_loop(text));
        #[cfg(feature = "theirs")]
        {
            time!(kind, "encode\tthe crate base62", numbers, n => (base62::encode_bytes(*n, &mut buffer), black_box(&buffer)));
            time!(kind, "decode\tthe crate base62", texts, text => base62::decode(text));
        }
    }
}
