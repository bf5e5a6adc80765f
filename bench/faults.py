#!/usr/bin/env python3
"""Compares what the reader says of randomly edited scenarios with the plain model's reader: line and reason, or the
printed scenario.

    python3 bench/faults.py MODEL [FIRST COUNT]

MODEL is a folder with the plain model of the engine. The seeds are 1 to 20,000, or COUNT from FIRST on; where `rt try`'s
minute is too short for all, ask for 3,000 at a time. Each seed gives a scenario with lines of every kind and up to
three edits of it; a third is read for each caller: one that plays all lines, one that plays the lines of a tab with loads,
and one that runs threads. In a folder of its own, beside copies of the crates, a program reads the scenarios, one a
line, and prints what came of each. It is run by `rt try`, so no proof is needed.
"""
import random
import subprocess
import sys
import tempfile

from beside import copied, written

FIRST = 1
COUNT = 20_000

PROGRAM = r"""//! Reads scenarios, one a line, each as its caller's letter and its bytes in hexadecimal.
#![tactic(auto)]

use address::OutOfMemory;
use scenario_text::{Built, Scenario, ScenarioError};
use std::alloc::Global;
use std::io;
use std::process::ExitCode;
use tab_io::{StdSink, StdSource, read_all, write_all};

fn digit(b: u8) -> u8 {
    if b <= b'9' { b.wrapping_sub(b'0') } else { b.wrapping_sub(b'a').wrapping_add(10) }
}

fn decoded(alloc: Global, digits: &[u8]) -> Result<Vec<u8>, OutOfMemory> {
    let mut bytes = Vec::new(alloc);
    let mut high = None;
    for b in digits {
        match high {
            None => high = Some(digit(*b)),
            Some(first) => {
                bytes.push(u8::wrapping_mul(first, 16).wrapping_add(digit(*b)))?;
                high = None;
            }
        }
    }
    Ok(bytes)
}

fn told(alloc: Global, case: &[u8], out: &mut Vec<u8>) -> Result<(), OutOfMemory> {
    let [caller, digits @ ..] = case else {
        return Ok(());
    };
    let (in_run, built) = match *caller {
        b'a' => (false, Built::All),
        b'l' => (false, Built::Loads),
        _ => (true, Built::All),
    };
    let bytes = decoded(alloc, digits)?;
    match Scenario::read(alloc, &bytes, in_run, built) {
        Ok(scenario) => {
            let text = scenario.print(alloc)?;
            for b in text.bytes() {
                out.push(if *b == b'\n' { b'|' } else { *b })?;
            }
        }
        Err(ScenarioError::Refused(refusal)) => {
            let line = refusal.line.to_string(alloc)?;
            out.extend_from_slice(line.as_bytes())?;
            out.push(b' ')?;
            out.extend_from_slice(refusal.reason.text().as_bytes())?;
        }
        Err(ScenarioError::UrlOverflow(_)) => out.extend_from_slice(b"url overflow")?,
        Err(ScenarioError::OutOfMemory) => out.extend_from_slice(b"out of memory")?,
    }
    out.push(b'\n')?;
    Ok(())
}

fn all_told(rt: &HostRuntime) -> Result<Vec<u8>, OutOfMemory> {
    let alloc = rt.alloc();
    let Ok(text) = read_all(alloc, &mut StdSource::new(rt.reader()), 1_000_000_000) else {
        return Err(OutOfMemory);
    };
    let mut out = Vec::new(alloc);
    for case in text.bytes().split(|b| *b == b'\n') {
        told(alloc, case, &mut out)?;
    }
    Ok(out)
}

fn main(rt: HostRuntime) -> ExitCode {
    let Ok(bytes) = all_told(&rt) else {
        return ExitCode::from(1);
    };
    match write_all(&mut StdSink::new(io::writer(&rt)), &bytes) {
        Ok(()) => ExitCode::from(0),
        Err(_) => ExitCode::from(2),
    }
}
"""

ADDRESSES = ["http://a.test/", "http://b.test", "https://c.test:81/x?y", "HTTP://A.test:80/../z", "about:blank",
             "about:blank#x", "http://a.test/#t", "http://u@a.test/", "ftp://a.test/", "a", "http://", "https://d.test:443"]
WORDS = ["0", "1", "-1", "00", "999", "1000", "-999", "4095", "4096", "16", "17", "64", "63", "65", "65535", "65536", "-",
         "s", "auto", "push", "replace", "stay", "leave", "open", "keep", "site", "page", "session", "load", "settle", "x" * 64,
         "x" * 65, "x" * 2048, "x" * 2049, "kill", "act", "#", "evict"]
BYTES = " \n\r\t#-/:.01239azA~\x7f\x00\x80"
PLAYED = {"session", "keep", "site", "open", "load", "go", "push", "replace", "fragment", "frame", "remove", "docgo", "edit", "answer", "evict", "act", "begin", "finish", "deliver", "settle"}


def line(rng):
    """A line after `open`."""
    nav, child, proc = rng.choice([0, 1, 4095]), rng.choice([1, 4095]), rng.choice([1, 2, 16])
    address, delta, memo = rng.choice(ADDRESSES[:7]), rng.choice([-999, -1, 1, 999]), rng.choice(["-", "s", "x" * 64])
    return rng.choice([
        f"load {nav} {rng.choice(['auto', 'push', 'replace'])} {address}", f"go {delta}", f"reload {nav}",
        f"push {nav} {memo}", f"push {nav} {memo} /1", f"replace {nav} {memo}", f"replace {nav} {memo} ../2",
        f"fragment {nav} x", f"frame {nav} {child}", f"remove {nav} {child}", f"docgo {nav} {delta}", f"edit {nav}",
        f"answer {rng.choice([1, 65535])} {rng.choice(['stay', 'leave'])}", "evict", f"kill {proc}", f"act {proc}",
        f"begin {proc}", f"finish {proc}", f"deliver {proc}", "settle", "settle", "settle", "", "# a comment"])


def scenario(rng):
    lines = ["session 1"]
    if rng.random() < 0.5:
        lines.append(f"keep {rng.choice([0, 3, 64])}")
    for address in rng.sample(["http://a.test", "http://b.test/", "https://c.test:81", "HTTPS://D.test:443"], rng.randrange(3)):
        lines.append(f"site {address} {rng.choice([1, 16])}")
    for address in rng.sample(["http://a.test", "http://b.test/?q", "about:blank", "HTTP://A.test/x/../y"], rng.randrange(3)):
        lines.append(f"page {address} {rng.choice([0, 63])}")
    lines.append(f"open {rng.choice(ADDRESSES[:7])}")
    lines += [line(rng) for _ in range(rng.randrange(9))]
    return "\n".join(lines) + "\n"


def edited(rng, text):
    """The text with one edit: of a byte, of a word or of a line."""
    at = rng.randrange(len(text) + 1)
    lines = text.split("\n")
    row = rng.randrange(len(lines))
    words = lines[row].split(" ")
    word = rng.randrange(len(words))
    kind = rng.randrange(10)
    if kind == 0:
        return text[:at] + text[at + 1:]
    if kind == 1:
        return text[:at] + rng.choice(BYTES) + text[at:]
    if kind == 2:
        return text[:at] + rng.choice(BYTES) + text[at + 1:]
    if kind == 3:
        return text[:at]
    if kind == 4:
        lines.insert(row, rng.choice(lines))
    elif kind == 5:
        del lines[row]
    elif kind == 6:
        lines.insert(row, line(rng))
    elif kind == 7:
        words[word] = rng.choice(WORDS + ADDRESSES)
        lines[row] = " ".join(words)
    elif kind == 8:
        words.insert(word, rng.choice(WORDS + ADDRESSES))
        lines[row] = " ".join(words)
    else:
        del words[word]
        lines[row] = " ".join(words)
    return "\n".join(lines)


def cases(first, count):
    """For each seed the letter of a caller and the bytes of a scenario."""
    for seed in range(first, first + count):
        rng = random.Random(seed)
        text = scenario(rng)
        for _ in range(rng.randrange(4)):
            text = edited(rng, text)
        yield "alr"[seed % 3], text.encode("latin-1")


def said(model, caller, data):
    """What the plain model's reader says: the first fault, or the printed scenario."""
    reader = model.Reader(in_run=caller == "r")
    try:
        for number, text in model.counted(data):
            try:
                reader.line(text)
            except model._Fault as fault:
                raise model.Refusal(number, fault.reason) from None
            if reader.version != 1:
                # the model reads a later version, too
                raise model.Refusal(number, "header")
            if caller == "l" and text.split(" ")[0] not in PLAYED:
                raise model.Refusal(number, "unbuilt")
        if reader.stage < 5:
            raise model.Refusal(model.count_lines(data) + 1, "header")
    except model.Refusal as refusal:
        return f"{refusal.line} {refusal.reason}"
    return model.print_scenario(reader.scenario()).replace("\n", "|")


def program_says(all_cases):
    with tempfile.TemporaryDirectory() as folder:
        crate = copied(folder, ["scenario_text", "tab_io"], "faults")
        written(f"{crate}/src/main.rt", PROGRAM)
        written(f"{folder}/cases/all", "\n".join(caller + data.hex() for caller, data in all_cases))
        written(f"{folder}/HANDLES", "Handles allowed: none.\n")
        with open(f"{folder}/cases/all") as source:
            run = subprocess.run(["rt", "try"], cwd=crate, stdin=source, stdout=subprocess.PIPE, stderr=subprocess.PIPE, text=True)
        return run.stdout.splitlines(), run.stderr


def main(folder, first=str(FIRST), count=str(COUNT)):
    sys.path.insert(0, folder)
    import scenario as model

    all_cases = list(cases(int(first), int(count)))
    got, errors = program_says(all_cases)
    wanted = [said(model, caller, data) for caller, data in all_cases]
    agree = sum(a == b for a, b in zip(got, wanted))
    refused = sum(text[0].isdigit() for text in wanted)
    print(f"{agree} of {count} agree, {refused} of them refusals")
    if agree == int(count):
        return 0
    if len(got) < len(wanted):
        print(errors[-2000:])
    for (caller, data), a, b in zip(all_cases, got, wanted):
        if a != b:
            print(f"{caller} {data!r}\n  the program: {a[:300]}\n  the model:   {b[:300]}")
            break
    return 1


if __name__ == "__main__":
    sys.exit(main(*sys.argv[1:4]))
