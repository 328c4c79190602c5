//! Without an argument it answers the line protocol; else it generates
//! requests, spoils a table, compares two programs' answers, counts what answers
//! reach, or says what `show` and `map` of the shop's program should, a table's
//! BLIF, its rows without those that contain another, or how many partners its
//! cubes have.

use second::network::Network;
use second::{blif, compare, extract, generate, image, map, protocol, report, spoil, table};
use std::io::{self, BufWriter, Write};
use std::process::ExitCode;

const USAGE: &str = "second
second generate SEED COUNT [OPERATION ...]
second spoil TABLE [BYTE ...]
second compare REQUESTS LEFT RIGHT
second cover REQUESTS ANSWERS
second show IMAGE
second map TABLE
second blif TABLE
second table TABLE
second partners TABLE";

fn main() -> ExitCode {
    let words: Vec<String> = std::env::args().skip(1).collect();
    let words: Vec<&str> = words.iter().map(String::as_str).collect();
    let done = match words.as_slice() {
        [] => serve(),
        ["generate", seed, count, names @ ..] => print_requests(seed, count, names),
        ["spoil", file, bytes @ ..] => print_spoiled(file, bytes),
        ["compare", requests, left, right] => compare_files(requests, left, right),
        ["cover", requests, answers] => cover_files(requests, answers),
        ["show", file] => show_file(file),
        ["map", file] => print_extracted(file, map::map),
        ["blif", file] => print_extracted(file, blif::write),
        ["table", file] => print_read(file, table::written),
        ["partners", file] => print_read(file, |network| format!("{}\n", extract::partners(network))),
        _ => Err(io::Error::other(USAGE)),
    };
    done.unwrap_or_else(|error| {
        eprintln!("{error}");
        ExitCode::from(2)
    })
}

fn serve() -> io::Result<ExitCode> {
    protocol::serve(io::stdin().lock(), BufWriter::new(io::stdout().lock()))?;
    Ok(ExitCode::SUCCESS)
}

fn print_requests(seed: &str, count: &str, names: &[&str]) -> io::Result<ExitCode> {
    let number = |text: &str| text.parse::<u64>().map_err(|_| io::Error::other(USAGE));
    let known = |name: &&str| generate::KINDS.contains(name);
    if !names.iter().all(known) {
        return Err(io::Error::other(format!("operations are {}", generate::KINDS.join(" "))));
    }
    print_lines(generate::requests(number(seed)?, number(count)?, names))
}

/// Every further argument is a byte in hex.
fn print_spoiled(file: &str, bytes: &[&str]) -> io::Result<ExitCode> {
    let byte = |text: &&str| u8::from_str_radix(text, 16).map_err(|_| io::Error::other(USAGE));
    let bytes: Vec<u8> = bytes.iter().map(byte).collect::<io::Result<_>>()?;
    print_lines(spoil::requests(&std::fs::read(file)?, &bytes))
}

fn print_lines(lines: impl Iterator<Item = Vec<u8>>) -> io::Result<ExitCode> {
    let mut out = BufWriter::new(io::stdout().lock());
    for line in lines {
        out.write_all(&line)?;
        out.write_all(b"\n")?;
    }
    out.flush()?;
    Ok(ExitCode::SUCCESS)
}

fn compare_files(requests: &str, left: &str, right: &str) -> io::Result<ExitCode> {
    let files = [requests, left, right].map(std::fs::read);
    let [requests, left, right] = files;
    let (printed, alike) = compare::compare(&requests?, &left?, &right?);
    io::stdout().write_all(printed.as_bytes())?;
    Ok(if alike { ExitCode::SUCCESS } else { ExitCode::from(1) })
}

fn cover_files(requests: &str, answers: &str) -> io::Result<ExitCode> {
    let printed = compare::cover(&std::fs::read(requests)?, &std::fs::read(answers)?);
    io::stdout().write_all(printed.as_bytes())?;
    Ok(ExitCode::SUCCESS)
}

fn show_file(file: &str) -> io::Result<ExitCode> {
    let read = image::read(&std::fs::read(file)?);
    let network = read.map_err(|number| io::Error::other(format!("refused {number}")))?;
    print!("{}", map::show(&network));
    Ok(ExitCode::SUCCESS)
}

fn network_of(file: &str) -> io::Result<Network> {
    let read = table::read(&std::fs::read(file)?);
    read.map_err(|refusal| io::Error::other(refusal.text()))
}

/// What is to be said of a table's network as it was read.
fn print_read(file: &str, said: fn(&Network) -> String) -> io::Result<ExitCode> {
    print!("{}", said(&network_of(file)?));
    Ok(ExitCode::SUCCESS)
}

/// What is to be said of a table's network, once the program's steps are made.
fn print_extracted(file: &str, said: fn(&Network) -> String) -> io::Result<ExitCode> {
    let mut network = network_of(file)?;
    extract::run(&mut network, report::STEPS);
    print!("{}", said(&network));
    Ok(ExitCode::SUCCESS)
}
