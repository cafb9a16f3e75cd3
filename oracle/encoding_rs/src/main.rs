//! Decodes records under a label by the Rust crate encoding_rs, to compare with.
//!
//! Standard input: a label, LF, and records, each its length in two bytes, the low one first, and its
//! bytes. Standard output: for each record the length of its text in four bytes, and the text.
//! `charset_oracle text LABEL` writes the text of standard input as one record, and `charset_oracle
//! time ROUNDS LABEL` decodes it so often, and writes the least nanoseconds for each byte.
use encoding_rs::Encoding;
use std::io::{Read, Write};
use std::time::Instant;

fn main() {
    let arguments: Vec<String> = std::env::args().collect();
    let mut input = Vec::new();
    std::io::stdin().read_to_end(&mut input).unwrap();
    if arguments.len() == 3 && arguments[1] == "text" {
        let encoding = Encoding::for_label(arguments[2].as_bytes()).expect("a label");
        let text = encoding.decode_without_bom_handling(&input).0;
        std::io::stdout().write_all(text.as_bytes()).unwrap();
        return;
    }
    if arguments.len() == 4 && arguments[1] == "time" {
        let encoding = Encoding::for_label(arguments[3].as_bytes()).expect("a label");
        let mut least = f64::MAX;
        for _ in 0..arguments[2].parse::<usize>().unwrap() {
            let start = Instant::now();
            let text = encoding.decode_without_bom_handling(&input).0;
            let spent = start.elapsed().as_nanos() as f64;
            least = least.min(spent / input.len() as f64);
            std::hint::black_box(text);
        }
        println!("{least:.3}");
        return;
    }
    let line = input.iter().position(|&byte| byte == b'\n').expect("a line");
    let encoding = Encoding::for_label(&input[..line]);
    let mut rest = &input[line + 1..];
    let mut output = Vec::new();
    while !rest.is_empty() {
        let length = usize::from(rest[0]) + 256 * usize::from(rest[1]);
        let text = match encoding {
            Some(encoding) => encoding.decode_without_bom_handling(&rest[2..2 + length]).0,
            None => "".into(),
        };
        output.extend_from_slice(&(text.len() as u32).to_le_bytes());
        output.extend_from_slice(text.as_bytes());
        rest = &rest[2 + length..];
    }
    std::io::stdout().write_all(&output).unwrap();
}
