#!/usr/bin/env python3
"""Opens the page that draws a log in a headless browser, and looks at what it shows.

    viewer/test.py [PROGRAM] [--picture FILE]

PROGRAM prints logs and reports; it is scripts/tab unless it is named. The browser and its driver are the packages
chromium, chromium-driver and python3-selenium of Debian; run it with /usr/bin/python3.
"""
import argparse
import os
import subprocess
import sys
import tempfile

from selenium import webdriver
from selenium.webdriver.common.by import By
from selenium.webdriver.common.keys import Keys

HERE = os.path.dirname(os.path.abspath(__file__))
TOP = os.path.dirname(HERE)
EXAMPLE = os.path.join(TOP, 'docs', 'examples', 'late_push.txt')
EVERY_ROW = os.path.join(HERE, 'every_row.log.txt')
KINDS = 15
LARGE_ROWS = 20_000


# ---- logs ---------------------------------------------------------------------------------------

def played(program: str, scenario: str) -> str:
    """What the program prints of a scenario: the log, then the report."""
    return subprocess.run(program.split() + ['play', 'log'], input=scenario, capture_output=True, text=True, check=True).stdout


def parts(printed: str) -> tuple[list[str], list[str]]:
    """The lines of the log and those of the report."""
    lines = printed.splitlines()
    first = next(i for i, line in enumerate(lines) if line.startswith('quiet '))
    return lines[:first], lines[first:]


def cuts(scenario: str, count: int) -> list[str]:
    """The scenario cut after some of its lines, and the whole of it."""
    lines = scenario.splitlines(keepends=True)
    ends = [i + 1 for i, line in enumerate(lines) if line.startswith(('act', 'settle', 'begin'))]
    return [''.join(lines[:end]) for end in ends[-count:]]


def large() -> str:
    """A log of pushes and traversals, of more rows than are ever seen at once."""
    rows = ['0 start opened n0 e0.1 s1 d1 p1 - http://a.test/']
    event, req, job = 1, 1, 1
    while len(rows) < LARGE_ROWS:
        rows += [
            f'{event} ui accepted r{req} d1 push 0 s{req} /p{req}',
            f'{event + 1} p1 made p1 r{req} d1 1 push e1.{req} s{req} http://a.test/p{req}',
            f'{event + 2} co delivered p1',
            f'{event + 2} co applied r{req} push n0 e1.{req} s1 s{req} http://a.test/p{req}',
            f'{event + 2} co sent j{job} p1 0 d1 r{req} update {req + 1} {req}',
            f'{event + 3} p1 taken p1 j{job} live clean',
            f'{event + 4} p1 finished p1 j{job} updated',
            f'{event + 5} co delivered p1',
        ]
        event, req, job = event + 6, req + 1, job + 1
    return '\n'.join(rows[:LARGE_ROWS]) + '\n'


# ---- the page -----------------------------------------------------------------------------------

class Page:
    def __init__(self, folder: str):
        options = webdriver.ChromeOptions()
        for word in ('--headless=new', '--no-sandbox', '--disable-gpu', '--window-size=1400,900', f'--user-data-dir={folder}/browser'):
            options.add_argument(word)
        self.browser = webdriver.Chrome(options=options)
        self.folder = folder

    def open(self, log: str) -> None:
        """Opens the copy of the page that holds the log."""
        page = os.path.join(self.folder, 'page.html')
        with open(page, 'w', encoding='utf-8') as file:
            subprocess.run([os.path.join(TOP, 'scripts', 'timeline')], input=log, text=True, stdout=file, check=True)
        self.browser.get('file://' + page)

    def run(self, script: str, *arguments):
        return self.browser.execute_script(script, *arguments)

    def text(self, id: str) -> str:
        return self.browser.find_element(By.ID, id).text

    def press(self, key: str) -> None:
        self.browser.find_element(By.ID, 'time').send_keys(key)

    def choose(self, event: int) -> None:
        field = self.browser.find_element(By.ID, 'event')
        field.send_keys(Keys.CONTROL, 'a')
        field.send_keys(str(event), Keys.ENTER)

    def light(self, request: int) -> None:
        field = self.browser.find_element(By.ID, 'number')
        field.send_keys(Keys.CONTROL, 'a')
        field.send_keys(str(request))

    def cells(self, kind: str) -> set[tuple[int, int]]:
        """Navigable and step of the cells of a kind in the grid, which draws only what is seen of it."""
        found = self.run("""
            const grid = document.getElementById('grid'), found = [];
            for (let x = 0; x <= grid.scrollWidth; x += 200) {
                grid.scrollLeft = x;
                page.refill();
                found.push(...document.querySelectorAll(arguments[0]));
            }
            return found.map(c => [Number(c.dataset.nav), Number(c.dataset.step)])""", kind)
        return {tuple(pair) for pair in found}

    def lit(self) -> list[str]:
        """The lines of the rows that are lit, of those that are drawn."""
        return self.run("return [...document.querySelectorAll('.row.lit > title')].map(t => t.textContent)")


# ---- what is looked at --------------------------------------------------------------------------

def check(good: bool, what: str) -> None:
    print(('ok      ' if good else 'FAILED  ') + what)
    if not good:
        raise SystemExit(1)


def shows_report(page: Page, report: list[str]) -> None:
    """The grid, its targets and the heading are those of the report."""
    words = [line.split() for line in report]
    entries = {(int(w[1]), int(w[2])) for w in words if w[0] == 'entry'}
    targets = {(int(w[1]), int(w[3])) for w in words if w[0] == 'nav'}
    step, length, index = (int(report[1].split()[i]) for i in (1, 3, 5))
    shown = page.cells('.cell:not(.gone)')
    check(shown == entries, f'{len(entries)} entries in the grid')
    check(targets <= page.cells('.cell.target'), f'{len(targets)} targets in the grid')
    check(page.text('now').endswith(f'step {step}, length {length}, index {index}'), f'step {step}, length {length}, index {index}')
    for w in (w for w in words if w[0] == 'nav'):
        how = {'runs': 'it runs its target', 'moves': 'on its way', 'lost': 'died'}[w[2]]
        line = next(line for line in page.text('navigables').splitlines() if line.startswith(f'navigable {w[1]}:'))
        check(f'step {w[3]}' in line and how in line, line)
    is_open = {int(w[1]) for w in words if w[0] == 'request' and w[2] == 'open'}
    listed = {int(line.split()[1]) for line in page.text('open').splitlines() if line.startswith('request ')}
    check(is_open == listed, f'open requests: {sorted(listed)}')


def looks_at_example(page: Page, program: str, picture: str | None) -> None:
    with open(EXAMPLE) as file:
        scenario = file.read()
    whole = played(program, scenario)
    page.open(whole)
    check(page.text('faults') == '', 'no line of the example is at fault')
    for cut in cuts(scenario, 4):
        log, report = parts(played(program, cut))
        page.choose(int(log[-1].split()[0]))
        shows_report(page, report)
    dropped = next(line for line in parts(whole)[0] if ' dropped ' in line).split()
    req, by = dropped[3][1:], dropped[5][1:]
    page.light(int(req))
    check(f"Request {req} was dropped: request {by}'s traversal had moved navigable 0." in page.text('story'), page.text('story'))
    page.choose(int(dropped[0]))
    check(' '.join(dropped) in page.lit(), 'the row that drops it is lit')
    if picture:
        page.browser.save_screenshot(picture)


def looks_at_every_row(page: Page) -> None:
    with open(EVERY_ROW) as file:
        text = file.read()
    log, report = parts(text)
    kinds = {line.split()[2] for line in log}
    check(len(kinds) == KINDS, f'the log has rows of all {KINDS} kinds')
    page.open(text)
    check(page.text('faults') == '', 'no line of it is at fault')
    page.choose(int(log[-1].split()[0]))
    shows_report(page, report)
    drawn, lines = set(), set()
    for _ in range(100):
        for line, shape in page.run("return [...document.querySelectorAll('.row')].map(r => [r.querySelector('title').textContent, r.querySelector('.shape').getAttribute('d')])"):
            lines.add(line)
            drawn.add((line.split()[2], shape))
        page.run("document.getElementById('time').scrollLeft -= 900; draw();")
        if page.run("return document.getElementById('time').scrollLeft") == 0 and log[0] in lines:
            break
    check(lines == set(log), f'{len(lines)} rows are drawn')
    check(len(drawn) == KINDS and len({shape for _, shape in drawn}) == KINDS, 'each kind has its own shape')


def looks_at_faults(page: Page) -> None:
    with open(EVERY_ROW) as file:
        lines = parts(file.read())[0]
    for number, broken, says in ((5, 'x', 'event'), (9, lines[8].replace(' p', ' q', 1), 'no process'), (12, lines[11] + ' more', 'too many'), (1, '', 'event')):
        bad = lines[:number - 1] + [broken] + lines[number:]
        page.open('\n'.join(bad) + '\n')
        told = page.text('faults')
        check(f'Line {number} is no row' in told and says in told, told)
        check(page.text('size').startswith(f'{len(lines) - 1} rows'), 'the rest is drawn')


def looks_at_keys(page: Page) -> None:
    with open(EVERY_ROW) as file:
        page.open(file.read())
    for key, event in ((Keys.ARROW_RIGHT, 1), (Keys.PAGE_DOWN, 11), (Keys.ARROW_LEFT, 10), (Keys.HOME, 0)):
        page.press(key)
        check(page.text('now').startswith(f'After event {event},'), f'a key leads to event {event}')
    page.press('r')
    check(page.run('return document.activeElement.id') == 'number', 'R leads to the number of a request')


def looks_at_large(page: Page) -> None:
    text = large()
    page.open('')
    took = page.run('const from = performance.now(); open(arguments[0]); document.body.getBoundingClientRect(); return performance.now() - from', text)
    check(took < 2000, f'{LARGE_ROWS} rows are drawn in {took:.0f} ms')
    took = page.run('const from = performance.now(); choose(page.log.events.length - 1, true); draw(); document.body.getBoundingClientRect(); return performance.now() - from')
    check(took < 200, f'a jump to the end takes {took:.0f} ms')
    took = page.run("const box = document.getElementById('time'), from = performance.now(); for (let i = 0; i < 50; i++) { box.scrollLeft -= 1000; draw(); document.body.getBoundingClientRect(); } return (performance.now() - from) / 50")
    check(took < 100, f'a piece of a scroll takes {took:.1f} ms')
    marks = page.run("return document.querySelectorAll('.row').length")
    check(0 < marks < 500, f'{marks} of the rows stand in the page')


def main() -> int:
    parser = argparse.ArgumentParser(description=__doc__, formatter_class=argparse.RawDescriptionHelpFormatter)
    parser.add_argument('program', nargs='?', default=os.path.join(TOP, 'scripts', 'tab'))
    parser.add_argument('--picture')
    arguments = parser.parse_args()
    with tempfile.TemporaryDirectory() as folder:
        page = Page(folder)
        try:
            looks_at_example(page, arguments.program, arguments.picture)
            looks_at_every_row(page)
            looks_at_faults(page)
            looks_at_keys(page)
            looks_at_large(page)
        finally:
            page.browser.quit()
    return 0


if __name__ == '__main__':
    sys.exit(main())
