//! The independent second program: it makes the expected outputs of the product's programs
//! from their inputs, out of the documents alone. This file is its command line.

mod aes;
mod bits;
mod call;
mod cases;
mod challenge;
mod check;
mod demo;
mod fast;
mod gates;
mod kasumi;
mod keystreams;
mod kgcore;
mod lent;
mod lines;
mod link;
mod milenage;
mod pair;
mod product;
mod random;
mod refusals;
mod stream;
mod using;
mod vectors;
mod walk;

use std::env;
use std::io::{self, Read, Write};
use std::path::Path;
use std::process::ExitCode;

const USAGE: &str = "\
second stream          the expected output of `stream` for standard input
second call            the expected output of `call` for standard input
second walk            the expected output of `walk` for standard input
second demo            the expected output of `demo` for standard input
second challenge       the expected output of `challenge` for standard input
second using           the expected output of `using`
second cases stream    a test input for `stream`
second cases call      a test input for `call`
second cases walk      a test input for `walk`
second cases demo      a test input for `demo`
second cases demo N    a random script for `demo`, another for each N
second cases challenge a test input for `challenge`
second cases sweep     an input for `call`: V from 0 to 600 against every N
second huge stream     an input for `stream` with lines of a megabyte
second huge call       an input for `call` with lines of a megabyte
second huge walk       an input for `walk` with lines of a megabyte, up to the last number
second huge demo       an input for `demo` with lines of a megabyte
second huge challenge  an input for `challenge` with lines of a megabyte
second vectors DIR     a call and its answer for every set of DIR
second benchmark WHAT M COUNT   the expected output of `benchmark` for that line, by tables
second baseline WHAT M COUNT    the same, with the equations of S9 and the S-box of AES at each look-up";

fn main() -> ExitCode {
    let arguments: Vec<String> = env::args().skip(1).collect();
    let words: Vec<&str> = arguments.iter().map(String::as_str).collect();
    match output(&words).and_then(|output| print(&output)) {
        Ok(()) => ExitCode::SUCCESS,
        Err(message) => {
            eprintln!("{message}");
            ExitCode::FAILURE
        }
    }
}

fn output(words: &[&str]) -> Result<Vec<u8>, String> {
    match *words {
        ["stream"] => Ok(lines::answers(&input()?, stream::answer).into()),
        ["call"] => Ok(lines::answers(&input()?, call::answer).into()),
        ["walk"] => Ok(walk::output(&input()?).into()),
        ["demo"] => Ok(demo::output(&input()?)),
        ["challenge"] => Ok(lines::answers(&input()?, challenge::answer).into()),
        ["using"] => Ok(using::output().into()),
        ["cases", "stream"] => Ok(cases::stream::input().into()),
        ["cases", "call"] => Ok(call::input().into()),
        ["cases", "walk"] => Ok(cases::walk::input().into()),
        ["cases", "demo"] => Ok(cases::demo::input().into()),
        ["cases", "demo", number] => {
            let number = number.parse().map_err(|_| "N is a number of 64 bits")?;
            Ok(cases::demo::script(number).into())
        }
        ["cases", "challenge"] => Ok(cases::challenge::input().into()),
        ["cases", "sweep"] => Ok(call::sweep().into()),
        ["huge", "stream"] => Ok(cases::huge::stream()),
        ["huge", "call"] => Ok(cases::huge::call()),
        ["huge", "walk"] => Ok(cases::huge::walk()),
        ["huge", "demo"] => Ok(cases::huge::demo()),
        ["huge", "challenge"] => Ok(cases::huge::challenge()),
        ["vectors", folder] => Ok(check::report(Path::new(folder))?.into()),
        ["benchmark", what, m, count] => benchmark(&fast::Tables::of_equations(), what, m, count),
        ["baseline", what, m, count] => {
            benchmark(&fast::Equations::with_table_of_s7(), what, m, count)
        }
        _ => Err(USAGE.to_string()),
    }
}

fn benchmark<B: fast::Boxes>(
    boxes: &B,
    what: &str,
    m: &str,
    count: &str,
) -> Result<Vec<u8>, String> {
    let what = fast::What::of(what).ok_or("WHAT is a number from 0 to 7")?;
    let m = m.parse().ok().filter(|m| (0..=65_536).contains(m));
    let m = m.ok_or("M is a number from 0 to 65536")?;
    let count = count.parse().map_err(|_| "COUNT is a number of 32 bits")?;
    Ok(format!("{:02X}\n", fast::benchmark(boxes, what, m, count)).into())
}

fn input() -> Result<Vec<u8>, String> {
    let mut input = Vec::new();
    io::stdin().read_to_end(&mut input).map_err(|error| error.to_string())?;
    Ok(input)
}

fn print(output: &[u8]) -> Result<(), String> {
    io::stdout().write_all(output).map_err(|error| error.to_string())
}
