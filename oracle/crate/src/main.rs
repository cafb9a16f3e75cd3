//! Answers for the Rust crate mailparse: what it reads a mail, a header, a value, a type, a
//! disposition, a date, message ids or a body as. README.md says which commands there are and what they
//! write.
mod bench;
mod lines;

use mailparse::{
    dateparse, msgidparse, parse_content_disposition, parse_content_type, parse_header,
    parse_headers, parse_mail, MailHeader, MailHeaderMap, MailParseError,
};
use std::fmt::Write as _;
use std::io::{self, BufRead, BufReader, BufWriter, Read, Write};
use std::process::ExitCode;

/// The stack of the thread that reads mails, for deep ones.
const STACK: usize = 256 << 20;

/// Why a question has no answer.
enum Fault {
    /// No command has this name.
    Command,
    /// The bytes are not what the command asks for.
    Input,
    /// A read or a write failed.
    Io(io::Error),
}

impl From<io::Error> for Fault {
    fn from(e: io::Error) -> Fault {
        Fault::Io(e)
    }
}

fn main() -> ExitCode {
    let thread = std::thread::Builder::new().stack_size(STACK).spawn(run);
    match thread.map(|handle| handle.join()) {
        Ok(Ok(Ok(code))) => code,
        Ok(Ok(Err(fault))) => {
            let text = match fault {
                Fault::Command => "no such command".to_string(),
                Fault::Input => "not the input of this command".to_string(),
                Fault::Io(e) => e.to_string(),
            };
            eprintln!("mail_oracle: {text}");
            ExitCode::from(2)
        }
        _ => ExitCode::from(101),
    }
}

fn run() -> Result<ExitCode, Fault> {
    let arguments: Vec<String> = std::env::args().skip(1).collect();
    let command = arguments.first().map_or("", String::as_str);
    if command == "batch" {
        batch()?;
        return Ok(ExitCode::SUCCESS);
    }
    let mut input = Vec::new();
    io::stdin().read_to_end(&mut input)?;
    let mut output = String::new();
    match command {
        "bench" => {
            let rounds = arguments.get(1).and_then(|count| count.parse().ok());
            let names = arguments.get(2..).unwrap_or_default();
            bench::bench(&mut output, &input, rounds.unwrap_or(10), names);
        }
        "search" => {
            let rounds = arguments.get(1).and_then(|count| count.parse().ok());
            bench::search(&mut output, &input, rounds.unwrap_or(10));
        }
        "show" => match shown_mail(&input) {
            Ok(text) => output = text,
            Err(e) => {
                eprintln!("mail_show: {e}");
                return Ok(ExitCode::FAILURE);
            }
        },
        command => answer(command, &input, &mut output)?,
    }
    io::stdout().write_all(output.as_bytes())?;
    Ok(ExitCode::SUCCESS)
}

/// Answers records `COMMAND LENGTH` LF and that many bytes until the input ends, each with a line `.`
/// after its answer.
fn batch() -> Result<(), Fault> {
    let mut input = BufReader::new(io::stdin().lock());
    let mut output = BufWriter::new(io::stdout().lock());
    let mut head = String::new();
    while input.read_line(&mut head)? > 0 {
        let (command, length) = head.trim_end().split_once(' ').ok_or(Fault::Input)?;
        let mut data = vec![0; length.parse().map_err(|_| Fault::Input)?];
        input.read_exact(&mut data)?;
        let mut text = String::new();
        answer(command, &data, &mut text)?;
        output.write_all(text.as_bytes())?;
        output.write_all(b".\n")?;
        head.clear();
    }
    output.flush()?;
    Ok(())
}

/// Writes the answer to a question.
fn answer(command: &str, input: &[u8], out: &mut String) -> Result<(), Fault> {
    match command {
        "dump" => match parse_mail(input) {
            Ok(mail) => {
                let _ = writeln!(out, "mail ok {}", mail.parts().count());
                lines::node(out, input, &mail, 0, &mut 0);
            }
            Err(e) => lines::refusal(out, "mail", &e),
        },
        "showhex" => lines::outcome(out, "show", shown_mail(input).map(String::into_bytes)),
        "header" => match parse_header(input) {
            Ok((header, end)) => {
                let _ = writeln!(out, "header ok {end}");
                lines::header(out, &header);
            }
            Err(e) => lines::refusal(out, "header", &e),
        },
        "headers" => match parse_headers(input) {
            Ok((headers, end)) => {
                let _ = writeln!(out, "headers ok {} {end}", headers.len());
                headers.iter().for_each(|header| lines::header(out, header));
            }
            Err(e) => lines::refusal(out, "headers", &e),
        },
        "find" => find(input, out)?,
        "value" => {
            let raw = [b"X:", input].concat();
            let (header, _) = parse_header(&raw).map_err(|_| Fault::Input)?;
            lines::bytes(out, "value", header.get_value().as_bytes());
        }
        "ctype" => lines::content_type(out, &parse_content_type(text(input)?)),
        "dispo" => lines::disposition(out, &parse_content_disposition(text(input)?)),
        "date" => lines::date(out, dateparse(text(input)?)),
        "msgid" => lines::ids(out, msgidparse(text(input)?)),
        "body" => {
            let mut fields = input.splitn(3, |byte| *byte == 0);
            let mut field = || fields.next().ok_or(Fault::Input);
            let (encoding, label, body) = (field()?, field()?, field()?);
            lines::body_of(out, text(encoding)?, text(label)?, body);
        }
        "debug" => match parse_mail(input) {
            Ok(mail) => lines::bytes(out, "debug", format!("{:?}", mail.get_headers()).as_bytes()),
            Err(e) => lines::refusal(out, "mail", &e),
        },
        _ => return Err(Fault::Command),
    }
    Ok(())
}

/// Looks a name up, which a zero byte ends, in the headers after it.
fn find(input: &[u8], out: &mut String) -> Result<(), Fault> {
    let end = input
        .iter()
        .position(|byte| *byte == 0)
        .ok_or(Fault::Input)?;
    let name = text(&input[..end])?;
    let (headers, _) = match parse_headers(&input[end + 1..]) {
        Ok(found) => found,
        Err(e) => {
            lines::refusal(out, "headers", &e);
            return Ok(());
        }
    };
    let place = |found: &MailHeader<'_>| headers.iter().position(|h| std::ptr::eq(h, found));
    match headers.get_first_header(name).and_then(place) {
        Some(number) => _ = writeln!(out, "first {number}"),
        None => out.push_str("first none\n"),
    }
    match headers.get_first_value(name) {
        Some(value) => lines::bytes(out, "first value", value.as_bytes()),
        None => out.push_str("first value none\n"),
    }
    for number in headers.get_all_headers(name).into_iter().filter_map(place) {
        let _ = writeln!(out, "all {number}");
    }
    for value in headers.get_all_values(name) {
        lines::bytes(out, "all value", value.as_bytes());
    }
    Ok(())
}

/// What the program mail_show prints of a mail.
fn shown_mail(input: &[u8]) -> Result<String, MailParseError> {
    let mail = parse_mail(input)?;
    let mut out = String::new();
    for (number, part) in mail.parts().enumerate() {
        let size = lines::raw_of(&part.get_body_encoded()).len();
        let (mimetype, count) = (&part.ctype.mimetype, part.headers.len());
        let _ = writeln!(
            out,
            "part {number}: {mimetype}, {count} headers, {size} body bytes"
        );
        for header in &part.headers {
            let _ = writeln!(out, "  {}: {}", header.get_key(), header.get_value());
        }
    }
    Ok(out)
}

fn text(input: &[u8]) -> Result<&str, Fault> {
    std::str::from_utf8(input).map_err(|_| Fault::Input)
}
