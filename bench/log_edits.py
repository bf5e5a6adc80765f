#!/usr/bin/env python3
"""Reads randomly edited texts of logs, and looks at what comes of each.

    python3 bench/log_edits.py MODEL [FIRST COUNT]

MODEL is a folder with the plain model of the engine, whose logs have every kind of row. The seeds are 1 to 20,000, or
COUNT from FIRST on. Each seed gives some lines of such a log, with up to two edits. A text that is read has to be printed
as it came, and one without an edit has to be read. Where a line is named, the lines before it have to be read by
themselves, and that line, by itself, has to be refused. In a folder of its own, beside copies of the crates, a program
reads the texts, one a line, and prints what came of each. It is run by `rt try`, so no proof is needed.
"""
import random
import subprocess
import sys
import tempfile

from beside import copied, written

FIRST = 1
COUNT = 20_000
PROFILES = ["one_document", "frames", "loads", "kept", "prompts", "deaths"]
PIECES = [" ", "  ", "0", "00", "1", "-", "x", "n", "e0.1", "p17", "r0", "4294967295", "4294967296", "18446744073709551616",
          "http://a.test", "HTTP://a.test/", "about:blank", "\x7f", "\n", "\n\n", "\r", "live", "void dirty", "clean", "co", "ui"]

PROGRAM = r"""//! Reads texts of logs, one a line, each as its bytes in hexadecimal.
#![tactic(auto)]

use address::OutOfMemory;
use log_reading::{LogTextError, read_log};
use log_text::row_line;
use std::alloc::Global;
use std::io;
use std::process::ExitCode;
use tab_io::{StdSink, StdSource, read_all, write_all};

fn digit(b: u8) -> u8 {
    if b <= b'9' { b.wrapping_sub(b'0') } else { b.wrapping_sub(b'a').wrapping_add(10) }
}

fn decoded(alloc: Global, digits: &[u8]) -> Result<Vec<u8>, OutOfMemory> {
    let mut bytes = Vec::new(alloc);
    let mut high = None;
    for b in digits {
        match high {
            None => high = Some(digit(*b)),
            Some(first) => {
                bytes.push(u8::wrapping_mul(first, 16).wrapping_add(digit(*b)))?;
                high = None;
            }
        }
    }
    Ok(bytes)
}

fn told(alloc: Global, digits: &[u8], out: &mut Vec<u8>) -> Result<(), OutOfMemory> {
    let bytes = decoded(alloc, digits)?;
    match read_log(alloc, &bytes) {
        Ok(log) => {
            let mut printed = Vec::new(alloc);
            for row in log.rows() {
                let line = row_line(alloc, row)?;
                printed.extend_from_slice(line.bytes())?;
            }
            if printed.as_slice() == bytes.as_slice() {
                out.extend_from_slice(b"same")?;
            } else {
                out.extend_from_slice(b"other")?;
            }
        }
        Err(LogTextError::NoRows) => out.extend_from_slice(b"none")?,
        Err(LogTextError::TooManyRows) => out.extend_from_slice(b"many")?,
        Err(LogTextError::BadLine(line)) => {
            let line = line.to_string(alloc)?;
            out.extend_from_slice(line.as_bytes())?;
        }
        Err(LogTextError::UrlOverflow(_)) => out.extend_from_slice(b"url overflow")?,
        Err(LogTextError::OutOfMemory) => out.extend_from_slice(b"out of memory")?,
    }
    out.push(b'\n')?;
    Ok(())
}

fn all_told(rt: &HostRuntime) -> Result<Vec<u8>, OutOfMemory> {
    let alloc = rt.alloc();
    let Ok(text) = read_all(alloc, &mut StdSource::new(rt.reader()), 1_000_000_000) else {
        return Err(OutOfMemory);
    };
    let mut out = Vec::new(alloc);
    for case in text.bytes().split(|b| *b == b'\n') {
        told(alloc, case, &mut out)?;
    }
    Ok(out)
}

fn main(rt: HostRuntime) -> ExitCode {
    let Ok(bytes) = all_told(&rt) else {
        return ExitCode::from(1);
    };
    match write_all(&mut StdSink::new(io::writer(&rt)), &bytes) {
        Ok(()) => ExitCode::from(0),
        Err(_) => ExitCode::from(2),
    }
}
"""


def logs(model):
    """Logs of the plain model, as lists of lines, a few of each profile."""
    sys.path.insert(0, model)
    import cases
    import logtext
    import scenario
    import tab
    from engine import World

    for profile in PROFILES:
        for seed in range(1, 9):
            read = scenario.read(cases.text_of(seed, profile).encode())
            world = World(read.header)
            for line in read.lines:
                tab.play_line(world, line)
            yield [logtext.row_line(row) for row in world.log]


def edited(rng, text):
    at = rng.randrange(len(text) + 1)
    kind = rng.randrange(4)
    if kind == 0:
        return text[:at] + rng.choice(PIECES) + text[at:]
    if kind == 1:
        return text[:at] + text[at + rng.randint(1, 4):]
    words = text.split(" ")
    place = rng.randrange(len(words))
    words[place] = rng.choice(PIECES) if kind == 2 else rng.choice(words)
    return " ".join(words)


def texts(model, first, count):
    """For each seed its text, and whether it is as the model printed it."""
    all_logs = list(logs(model))
    for seed in range(first, first + count):
        rng = random.Random(seed)
        lines = rng.choice(all_logs)
        start = rng.randrange(len(lines))
        text = "".join(line + "\n" for line in lines[start:start + rng.randint(1, 6)])
        edits = rng.choice([0, 1, 1, 1, 2])
        for _ in range(edits):
            text = edited(rng, text)
        yield text, edits == 0


def program_says(all_texts):
    with tempfile.TemporaryDirectory() as folder:
        crate = copied(folder, ["log_reading", "tab_io"], "log_edits")
        written(f"{crate}/src/main.rt", PROGRAM)
        written(f"{folder}/cases/all", "\n".join(text.encode("latin-1").hex() for text in all_texts))
        written(f"{folder}/HANDLES", "Handles allowed: none.\n")
        with open(f"{folder}/cases/all") as source:
            run = subprocess.run(["rt", "try", "--seconds", "600"], cwd=crate, stdin=source, stdout=subprocess.PIPE, stderr=subprocess.PIPE, text=True)
        if len(run.stdout.splitlines()) < len(all_texts):
            sys.exit(run.stderr[-2000:])
        return run.stdout.splitlines()


def parts(text, line):
    """The lines before one, and that line."""
    lines = text.splitlines(keepends=True) if "\r" not in text else [part + "\n" for part in text.split("\n")]
    return "".join(lines[:line - 1]), "".join(lines[line - 1:line])


def main(model, first=str(FIRST), count=str(COUNT)):
    all_texts = list(texts(model, int(first), int(count)))
    said = program_says([text for text, _ in all_texts])
    wrong = [(text, word) for (text, whole), word in zip(all_texts, said)
             if word not in ("same", "none") and (whole or not word.isdigit())]
    named = [(text, int(word)) for (text, _), word in zip(all_texts, said) if word.isdigit()]
    pairs = [parts(text, line) for text, line in named]
    again = program_says([part for pair in pairs for part in pair])
    for (text, line), before, alone in zip(named, again[::2], again[1::2]):
        if before != ("same" if line > 1 else "none") or alone not in ("1", "none"):
            wrong.append((text, f"{line}, but the lines before it are {before}, and it is {alone}"))
    print(f"{int(count) - len(wrong)} of {count} agree, {len(named)} of them refusals, {said.count('same')} read")
    for text, word in wrong[:3]:
        print(f"{text!r}: {word}")
    return 1 if wrong else 0


if __name__ == "__main__":
    sys.exit(main(*sys.argv[1:4]))
