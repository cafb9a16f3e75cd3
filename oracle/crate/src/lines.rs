//! The lines of an answer.
use mailparse::body::Body;
use mailparse::{
    dateparse, msgidparse, DispositionType, MailHeader, MailParseError, MessageIdList,
    ParsedContentDisposition, ParsedContentType, ParsedMail,
};
use std::borrow::Cow;
use std::collections::BTreeMap;
use std::fmt::Write as _;

/// Two hexadecimal digits for each byte, a dash for none.
fn hex(bytes: &[u8]) -> String {
    if bytes.is_empty() {
        return "-".to_string();
    }
    bytes.iter().map(|byte| format!("{byte:02x}")).collect()
}

/// A line of a word and bytes.
pub fn bytes(out: &mut String, word: &str, bytes: &[u8]) {
    let _ = writeln!(out, "{word} {}", hex(bytes));
}

/// A line of a word and a refusal.
pub fn refusal(out: &mut String, word: &str, e: &MailParseError) {
    let _ = writeln!(out, "{word} err {e}");
}

/// A line of a word and bytes, or a refusal.
pub fn outcome(out: &mut String, word: &str, outcome: Result<Vec<u8>, MailParseError>) {
    match outcome {
        Ok(found) => bytes(out, &format!("{word} ok"), &found),
        Err(e) => refusal(out, word, &e),
    }
}

/// The lines of a header.
pub fn header(out: &mut String, header: &MailHeader<'_>) {
    bytes(out, "key", header.get_key_raw());
    bytes(out, "raw", header.get_value_raw());
    bytes(out, "name", header.get_key().as_bytes());
    let key = header.get_key_ref();
    let word = match key {
        Cow::Borrowed(_) => "ref borrowed",
        Cow::Owned(_) => "ref owned",
    };
    bytes(out, word, key.as_bytes());
    bytes(out, "value", header.get_value().as_bytes());
    outcome(out, "utf8", header.get_value_utf8().map(String::into_bytes));
}

fn parameters(out: &mut String, word: &str, parameters: &BTreeMap<String, String>) {
    for (key, value) in parameters {
        let _ = writeln!(
            out,
            "{word} {} {}",
            hex(key.as_bytes()),
            hex(value.as_bytes())
        );
    }
}

/// The lines of a content type.
pub fn content_type(out: &mut String, ctype: &ParsedContentType) {
    bytes(out, "type", ctype.mimetype.as_bytes());
    bytes(out, "charset", ctype.charset.as_bytes());
    parameters(out, "param", &ctype.params);
}

/// The lines of a disposition.
pub fn disposition(out: &mut String, found: &ParsedContentDisposition) {
    match &found.disposition {
        DispositionType::Inline => out.push_str("disposition inline\n"),
        DispositionType::Attachment => out.push_str("disposition attachment\n"),
        DispositionType::FormData => out.push_str("disposition form-data\n"),
        DispositionType::Extension(text) => bytes(out, "disposition extension", text.as_bytes()),
    }
    parameters(out, "dparam", &found.params);
}

/// The line of a date.
pub fn date(out: &mut String, found: Result<i64, MailParseError>) {
    match found {
        Ok(seconds) => _ = writeln!(out, "date ok {seconds}"),
        Err(e) => refusal(out, "date", &e),
    }
}

/// The lines of message ids.
pub fn ids(out: &mut String, found: Result<MessageIdList, MailParseError>) {
    match found {
        Ok(list) => {
            let _ = writeln!(out, "ids ok {}", list.len());
            list.iter().for_each(|id| bytes(out, "id", id.as_bytes()));
            bytes(out, "idtext", list.to_string().as_bytes());
        }
        Err(e) => refusal(out, "ids", &e),
    }
}

/// The bytes of a body, not decoded.
pub fn raw_of<'a>(body: &Body<'a>) -> &'a [u8] {
    match body {
        Body::Base64(body) | Body::QuotedPrintable(body) => body.get_raw(),
        Body::SevenBit(body) | Body::EightBit(body) => body.get_raw(),
        Body::Binary(body) => body.get_raw(),
    }
}

/// The lines of a body.
pub fn body(out: &mut String, body: &Body<'_>) {
    let (kind, decoded, text) = match body {
        Body::Base64(b) => ("base64", b.get_decoded(), b.get_decoded_as_string()),
        Body::QuotedPrintable(b) => (
            "quoted-printable",
            b.get_decoded(),
            b.get_decoded_as_string(),
        ),
        Body::SevenBit(b) => ("7bit", Ok(b.get_raw().to_vec()), b.get_as_string()),
        Body::EightBit(b) => ("8bit", Ok(b.get_raw().to_vec()), b.get_as_string()),
        Body::Binary(b) => ("binary", Ok(b.get_raw().to_vec()), b.get_as_string()),
    };
    let _ = writeln!(out, "kind {kind}");
    outcome(out, "decoded", decoded);
    outcome(out, "text", text.map(String::into_bytes));
}

/// The lines of a body with this transfer encoding, none where it is empty, and this charset.
pub fn body_of(out: &mut String, encoding: &str, label: &str, raw: &[u8]) {
    let ctype = ParsedContentType {
        charset: label.to_string(),
        ..Default::default()
    };
    let encoding = Some(encoding.to_string()).filter(|name| !name.is_empty());
    body(out, &Body::new(raw, &ctype, &encoding));
}

/// The lines of a range: its offset in the input, its length and its hash.
fn range(out: &mut String, word: &str, input: &[u8], part: &[u8]) {
    let start = part.as_ptr() as usize - input.as_ptr() as usize;
    let _ = writeln!(out, "at {word} {start} {}", start + part.len());
    let _ = writeln!(out, "{word} {} {:016x}", part.len(), hash(part));
}

/// The hash FNV-1a of 64 bits.
fn hash(bytes: &[u8]) -> u64 {
    let step = |hash: u64, byte: &u8| (hash ^ u64::from(*byte)).wrapping_mul(0x100_0000_01b3);
    bytes.iter().fold(0xcbf2_9ce4_8422_2325, step)
}

/// The lines of a node and of those below it; `number` counts the nodes.
pub fn node(
    out: &mut String,
    input: &[u8],
    mail: &ParsedMail<'_>,
    level: usize,
    number: &mut usize,
) {
    let count = mail.subparts.len();
    let _ = writeln!(out, "node {number} level {level} subparts {count}");
    *number += 1;
    let encoded = mail.get_body_encoded();
    range(out, "bytes", input, mail.raw_bytes);
    range(out, "block", input, mail.get_headers().get_raw_bytes());
    range(out, "body", input, raw_of(&encoded));
    let _ = writeln!(out, "headers {}", mail.headers.len());
    for field in mail.get_headers() {
        header(out, field);
        match field.get_key().to_ascii_lowercase().as_str() {
            "date" => date(out, dateparse(&field.get_value())),
            "message-id" | "references" | "in-reply-to" => ids(out, msgidparse(&field.get_value())),
            _ => {}
        }
    }
    content_type(out, &mail.ctype);
    disposition(out, &mail.get_content_disposition());
    body(out, &encoded);
    outcome(out, "getbodyraw", mail.get_body_raw());
    outcome(out, "getbody", mail.get_body().map(String::into_bytes));
    for part in &mail.subparts {
        node(out, input, part, level + 1, number);
    }
}
