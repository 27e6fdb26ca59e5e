//! A script from its bytes to the bytes of its replies and its listing.
use crate::key::write_reference;
use crate::line::{Command, Reader, Refusal};
use crate::text::{write_literal, write_number};
use std::fs::File;
use std::io::{self, Read, Write};

const PIECE: usize = 65536;
const ENOUGH: usize = 16384;

pub trait Machine {
    /// Does a command of a job, and writes its reply behind the job.
    fn step(&mut self, job: u16, command: Command, out: &mut Vec<u8>) -> Result<(), Refusal>;
    /// The nodes with their values, in order.
    fn nodes(&self) -> impl Iterator<Item = (&[u8], &[u8])>;
}

fn write_if_enough(out: &mut Vec<u8>, output: &mut impl Write) -> io::Result<()> {
    if out.len() >= ENOUGH {
        output.write_all(out)?;
        out.clear();
    }
    Ok(())
}

fn run_line(machine: &mut impl Machine, reader: &mut Reader, line: &[u8], out: &mut Vec<u8>) {
    if line.is_empty() {
        return;
    }
    let (job, command) = reader.read(line);
    write_number(job.into(), out);
    out.push(b' ');
    if let Err(refusal) = command.and_then(|command| machine.step(job, command, out)) {
        out.extend_from_slice(b"error ");
        write_number(refusal as u64, out);
        let _ = write!(out, " {refusal:?}");
    }
    out.push(b'\n');
}

fn without_return(line: &[u8]) -> &[u8] {
    line.strip_suffix(b"\r").unwrap_or(line)
}

fn run_lines(machine: &mut impl Machine, input: &mut impl Read, output: &mut impl Write) -> io::Result<()> {
    let mut reader = Reader::default();
    let (mut out, mut begun, mut piece) = (Vec::new(), Vec::new(), vec![0; PIECE]);
    loop {
        let count = input.read(&mut piece)?;
        if count == 0 {
            run_line(machine, &mut reader, &begun, &mut out);
            return output.write_all(&out);
        }
        let mut rest = &piece[..count];
        while let Some(end) = rest.iter().position(|b| *b == b'\n') {
            if begun.is_empty() {
                run_line(machine, &mut reader, without_return(&rest[..end]), &mut out);
            } else {
                begun.extend_from_slice(&rest[..end]);
                run_line(machine, &mut reader, without_return(&begun), &mut out);
                begun.clear();
            }
            write_if_enough(&mut out, output)?;
            rest = &rest[end + 1..];
        }
        begun.extend_from_slice(rest);
        output.write_all(&out)?;
        out.clear();
    }
}

fn list(machine: &impl Machine, output: &mut impl Write) -> io::Result<()> {
    let mut out = b"--\n".to_vec();
    for (key, value) in machine.nodes() {
        write_reference(key, &mut out);
        out.push(b'=');
        write_literal(value, &mut out);
        out.push(b'\n');
        write_if_enough(&mut out, output)?;
    }
    output.write_all(&out)
}

/// Runs the script of the file that is named, or of standard input; `--no-listing` leaves out the listing.
pub fn run(mut machine: impl Machine) -> io::Result<()> {
    let (options, files): (Vec<_>, Vec<_>) = std::env::args().skip(1).partition(|word| word == "--no-listing");
    let mut input: Box<dyn Read> = match files.first() {
        Some(path) => Box::new(File::open(path)?),
        None => Box::new(io::stdin().lock()),
    };
    let mut output = io::stdout().lock();
    run_lines(&mut machine, &mut input, &mut output)?;
    if options.is_empty() {
        list(&machine, &mut output)?;
    }
    output.flush()
}
