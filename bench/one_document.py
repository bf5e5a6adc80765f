"""Random scenarios, of one document or another profile of the model, with the reports of the plain model, as cases for the program.

    python3 bench/one_document.py MODEL FOLDER FIRST COUNT [PROFILE]

MODEL is a folder with the plain model of the engine. For each seed FOLDER gets a scenario, its report, and the
program's word. To compare:

    cd crates/tab && rt try --cases FOLDER
"""
import os
import sys


def played(model, first, count, profile='one_document'):
    """For each seed its name, the scenario, and the log and the report of the plain model, as texts."""
    sys.path.insert(0, model)
    import cases
    import logtext
    import scenario
    import tab
    from engine import World

    for seed in range(first, first + count):
        text = cases.one_document(seed, profile) if profile == 'one_document' else cases.staged(seed, profile)
        read = scenario.read(text.encode())
        world = World(read.header)
        for line in read.lines:
            tab.play_line(world, line)
        yield '%06d' % seed, text, logtext.log_text(world.log), logtext.report(world.log)


def write_case(folder, name, contents):
    """Writes the files of a case, each content by the ending of its file's name."""
    os.makedirs(folder, exist_ok=True)
    for ending, content in contents.items():
        with open(os.path.join(folder, name + ending), 'w') as file:
            file.write(content)


def main(model, folder, first, count, profile='one_document'):
    for name, text, _, report in played(model, int(first), int(count), profile):
        write_case(folder, name, {'': text, '.stdout': report, '.args': 'play\n'})


if __name__ == '__main__':
    main(*sys.argv[1:6])
