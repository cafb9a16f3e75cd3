//! Times of reading a mail, and of searches for a byte by the crate memchr.
use mailparse::parse_mail;
use std::fmt::Write as _;
use std::hint::black_box;
use std::time::Instant;

/// Reads a mail and lets it go; its number of parts below the root.
fn parse(input: &[u8]) -> usize {
    parse_mail(black_box(input)).map_or(0, |mail| mail.subparts.len())
}

/// The same with the bytes of each body; how many those are.
fn full(input: &[u8]) -> usize {
    parse_mail(black_box(input)).map_or(0, |mail| {
        mail.parts()
            .map(|part| part.get_body_raw().map_or(0, |body| body.len()))
            .sum()
    })
}

/// The same with the value of each header; how many bytes both are.
fn all(input: &[u8]) -> usize {
    parse_mail(black_box(input)).map_or(0, |mail| {
        mail.parts()
            .map(|part| {
                let values: usize = part.headers.iter().map(|h| h.get_value().len()).sum();
                values + part.get_body_raw().map_or(0, |body| body.len())
            })
            .sum()
    })
}

/// The mails of a mailbox: the text after each line that begins with `From `.
fn mails(mailbox: &[u8]) -> impl Iterator<Item = &[u8]> {
    let mut left = mailbox.starts_with(b"From ").then_some(mailbox);
    std::iter::from_fn(move || {
        let (_separator, rest) = left?.split_at(memchr::memchr(b'\n', left?)? + 1);
        let next = memchr::memmem::find(rest, b"\nFrom ").map(|place| place + 1);
        left = next.map(|place| &rest[place..]);
        Some(&rest[..next.unwrap_or(rest.len())])
    })
}

/// Reads each mail of a mailbox on its own, as `parse` does.
fn mailbox_parse(input: &[u8]) -> usize {
    mails(black_box(input)).map(parse).sum()
}

/// Reads each mail of a mailbox on its own, as `all` does.
fn mailbox_all(input: &[u8]) -> usize {
    mails(black_box(input)).map(all).sum()
}

/// Looks for a byte that is absent; how many bytes come before it.
fn absent(input: &[u8]) -> usize {
    memchr::memchr(0, black_box(input)).unwrap_or(input.len())
}

/// Finds each LF; how many there are.
fn lines(input: &[u8]) -> usize {
    let mut rest = black_box(input);
    let mut count = 0;
    while let Some(place) = memchr::memchr(b'\n', rest) {
        rest = &rest[place + 1..];
        count += 1;
    }
    count
}

/// Writes the times of `rounds` rounds of the works of these names on a mail or a mailbox; of `parse`,
/// `full` and `all` where none is named.
pub fn bench(out: &mut String, input: &[u8], rounds: usize, names: &[String]) {
    let works: [Work; 5] = [
        ("parse", parse),
        ("full", full),
        ("all", all),
        ("mailbox-parse", mailbox_parse),
        ("mailbox-all", mailbox_all),
    ];
    if names.is_empty() {
        let _ = writeln!(out, "bytes {}\ndecoded {}", input.len(), full(input));
        times(out, &works[..3], input, rounds);
    }
    for name in names {
        let named = works.iter().filter(|(work, _)| work == name);
        times(out, &named.copied().collect::<Vec<Work>>(), input, rounds);
    }
}

/// Writes the times of `rounds` rounds of each search.
pub fn search(out: &mut String, input: &[u8], rounds: usize) {
    times(out, &[("absent", absent), ("lines", lines)], input, rounds);
}

/// A work and its name.
type Work = (&'static str, fn(&[u8]) -> usize);

/// Writes the times of `rounds` rounds of each work.
fn times(out: &mut String, works: &[Work], input: &[u8], rounds: usize) {
    for (name, work) in works {
        let mut times: Vec<f64> = (0..rounds.max(1))
            .map(|_| {
                let start = Instant::now();
                black_box(work(input));
                start.elapsed().as_nanos() as f64 / input.len().max(1) as f64
            })
            .collect();
        times.sort_by(f64::total_cmp);
        let (least, median) = (times[0], times[times.len() / 2]);
        let _ = writeln!(out, "{name} min {least:.3} median {median:.3} ns/byte");
    }
}
