#!/usr/bin/env python3
"""What the program of crates/tab_examples must print on the cases of its `stdin`, by the plain model of the engine.

    python3 bench/examples.py MODEL < crates/tab_examples/stdin > crates/tab_examples/stdout

MODEL is a folder with the plain model. A case is a line of words and settings after `= `, and its input up to the next
such line. Settings: `source=K` and `sink=K` fail the Kth call, `times=N` repeats the input, `cut` leaves out the input's
last line feed. What is worked by hand stands in the case: `bad=L` is the line of a log that spells no row, and `none` and
`many` say that a log has no line, or too many. The first word says what is run:

    play, play log,      the program's call, over a source and a sink that move 16 bytes a call
    make N
    faults WORDS         the call, with each call of its sink failing in turn
    scenario [one|run]   a scenario is read and printed: all lines, those of a tab of frames, those where threads run
    log                  a log is read and printed
    moments              a log is asked after each of its rows, the last one first
    views                a document's view acts on each accepted poke of a log, and does each order that is sent
    opened               the summary of a tab that was opened by the scenario's header
"""
import re
import sys

from faults import PLAYED

USAGE = "usage: play [log] | run [log] | make N | drill N"
CHUNK = 16


def cases(text):
    """The words, the settings and the input of each case, with its first line."""
    for part in ("\n" + text).removesuffix("\n").split("\n= ")[1:]:
        head, line_feed, rest = part.partition("\n")
        words = [word for word in head.split() if "=" not in word and word not in ("cut", "none", "many")]
        settings = dict(word.split("=") for word in head.split() if "=" in word)
        one = rest + ("" if "cut" in head.split() else line_feed)
        yield head, words, settings, one * int(settings.get("times", 1))


def refusal(model, data, in_run, plays_all):
    """The first fault of a scenario, or None."""
    reader = model.Reader(in_run=in_run)
    try:
        for number, text in model.counted(data):
            try:
                reader.line(text)
            except model._Fault as fault:
                return f"! scenario line {number}: {fault.reason}\n"
            if reader.version != 1:
                return f"! scenario line {number}: header\n"
            if not plays_all and text.split(" ")[0] not in PLAYED:
                return f"! scenario line {number}: unbuilt\n"
    except model.Refusal as fault:
        return f"! scenario line {fault.line}: {fault.reason}\n"
    if reader.stage < 5:
        return f"! scenario line {model.count_lines(data) + 1}: header\n"
    return None


def pieces(words, data):
    """What a call writes, as the pieces of its writes, or the line of its status."""
    import logtext
    import scenario
    import tab
    from engine import World

    if words[:1] == ["make"] and len(words) == 2 and re.fullmatch("0|[1-9][0-9]{0,8}", words[1]):
        return [scenario.make(int(words[1]))], ""
    if words not in (["play"], ["play", "log"]):
        return [], f"! {USAGE}\n"
    line = refusal(scenario, data, False, False)
    if line is not None:
        return [], line
    read = scenario.read(data)
    world = World(read.header)
    tab.play(read, world)
    report = logtext.report(world.log)
    return ([logtext.row_line(row) + "\n" for row in world.log] if words[1:] else []) + [report], ""


def written(texts, failing):
    """What a sink has taken, and whether it failed."""
    taken, call = "", 0
    for text in texts:
        for at in range(0, len(text), CHUNK):
            call += 1
            if call == failing:
                return taken, True
            taken += text[at:at + CHUNK]
    return taken, False


def called(words, settings, text):
    data = text.encode()
    calls = len(data) // CHUNK + 2 if len(data) % CHUNK else len(data) // CHUNK + 1
    if words in (["play"], ["play", "log"]) and 0 < int(settings.get("source", 0)) <= calls:
        return "! read fault\n"
    texts, line = pieces(words, data)
    taken, failed = written(texts, int(settings.get("sink", 0)))
    if failed:
        return taken + ("" if taken.endswith("\n") or not taken else "\n") + "! write fault\n"
    return taken + line


def faults(words, text):
    texts, _ = pieces(words, text.encode())
    out, call, failed = "", 0, True
    while failed:
        call += 1
        taken, failed = written(texts, call)
        out += f"call {call}: {len(taken)} bytes of the text" + ("\n! write fault\n" if failed else "\n")
    return out


def scenarios(words, text):
    import scenario

    line = refusal(scenario, text.encode(), words[1:] == ["run"], not words[1:])
    if line is not None:
        return line
    reader = scenario.Reader(in_run=words[1:] == ["run"])
    for _, one in scenario.counted(text.encode()):
        reader.line(one)
    return scenario.print_scenario(reader.scenario())


def moments(text):
    import logcheck

    out = ""
    for count in range(text.count("\n"), 0, -1):
        rows = logcheck.read_log("".join(text.splitlines(keepends=True)[:count]))
        state = logcheck.fold(rows)
        mail = [len(state.procs[proc].mail) if proc in state.procs else 0 for proc in (1, 2)]
        ended = any(row.kind in ("applied", "refused", "dropped") and row.req == 1 for row in rows)
        yes = {True: "yes", False: "no"}
        out += (f"{count} rows: still {yes[logcheck.D10_still(state)]}, quiet {yes[logcheck.D10_quiet(state)]}, "
                f"mail {mail[0]} {mail[1]}, request 1 {'ended' if ended else 'open'}, prompt {yes[1 in state.prompts_up]}\n")
    return out


def made_line(view, req, what):
    names = {"push": "push e{0[0]}.{0[1]} {1} {2}", "replace": "replace e{3[0]}.{3[1]} e{0[0]}.{0[1]} {1} {2}"}
    if what.kind in names:
        said = names[what.kind].format(what.entry, what.memo or "-", what.address, getattr(what, "over", None))
    else:
        said = what.kind + {"frame": " n%d", "remove": " n%d", "go": " %d", "edit": ""}[what.kind] % (
            () if what.kind == "edit" else (what.delta if what.kind == "go" else what.nav,))
    return f"0 p1 made p1 r{req} d{view.doc} {view.epoch} {said}\n"


def acted(check, view, req, what):
    made = check.D9_made(view, what)
    if made == "address":
        return "! address\n"
    line = made_line(view, req, made)
    check.view_does(view, made)
    return line


def views(text):
    import logcheck as check

    out, view = "", None
    for row in check.read_log(text):
        if row.kind == "opened":
            view = check.NS(doc=row.doc, entry=row.entry, address=row.address, memo=None, length=1, index=0, epoch=1,
                            running=True, dirty=False, initial=row.address == "about:blank", nr=0)
        elif row.kind == "accepted":
            out += acted(check, view, row.req, row.what) if view.running else "! no-document\n"
        elif row.job.doc != view.doc or row.job.task.kind in ("populate", "discard"):
            out += "! not for the view\n"
        elif row.job.task.kind == "activate":
            for name in ("entry", "epoch", "length", "index", "memo", "address"):
                setattr(view, name, getattr(row.job.task, name))
            view.running = True
        elif row.job.task.kind == "update":
            view.length, view.index = row.job.task.length, row.job.task.index
        elif row.job.task.kind == "freeze":
            view.running = False
        elif row.job.task.kind == "fragment" and view.running:
            task = row.job.task
            out += acted(check, view, task.req, check.NS(kind="order", mode=task.mode, address=task.address))
        out += (f"entry {view.entry[0]}.{view.entry[1]} length {view.length} index {view.index} epoch {view.epoch} "
                f"{'running' if view.running else 'frozen'} {'dirty' if view.dirty else 'clean'} {view.memo or '-'} {view.address}\n")
    return out


def opened(text):
    import logtext
    import scenario
    from engine import World

    return logtext.summary(World(scenario.read(text.encode()).header).log)


def told(head, words, settings, text):
    if words[:1] == ["scenario"]:
        return scenarios(words, text)
    if words == ["log"]:
        if "bad" in settings:
            return f"! log line {settings['bad']}\n"
        return "! no rows\n" if "none" in head.split() else "! too many rows\n" if "many" in head.split() else text
    if words == ["moments"]:
        return moments(text)
    if words == ["views"]:
        return views(text)
    if words == ["opened"]:
        return opened(text)
    if words[:1] == ["faults"]:
        return faults(words[1:], text)
    return called(words, settings, text)


def main(model):
    sys.path.insert(0, model)
    for head, words, settings, text in cases(sys.stdin.buffer.read().decode()):
        sys.stdout.write(f"= {head}\n" + told(head, words, settings, text))


if __name__ == "__main__":
    sys.stdout.reconfigure(newline="\n")
    main(sys.argv[1])
