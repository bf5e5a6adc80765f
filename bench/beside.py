"""Copies of crates in a folder, beside which a script puts a program of its own."""
import os
import shutil

TOP = os.path.dirname(os.path.dirname(os.path.abspath(__file__)))


def written(path: str, text: str) -> None:
    os.makedirs(os.path.dirname(path), exist_ok=True)
    with open(path, "w") as sink:
        sink.write(text)


def listed() -> dict[str, str]:
    """The lines of crates.txt by crate."""
    with open(f"{TOP}/crates.txt") as source:
        lines = [line.split("#")[0].strip() for line in source]
    return {line.split(":")[0].split()[0]: line for line in lines if line}


def with_those_below(crates: list[str]) -> list[str]:
    """The crates and all that they stand on, lowest first."""
    lines = listed()
    found: list[str] = []

    def find(crate: str) -> None:
        if crate in lines and crate not in found:
            for below in lines[crate].split(":")[1].split():
                find(below)
            found.append(crate)

    for crate in crates:
        find(crate)
    return found


def copied(folder: str, crates: list[str], program: str | None = None) -> str:
    """Copies the crates, with those below them, into the folder, and lists a program that stands on them, if one is named.

    Gives the folder of the program, or of the last of the crates.
    """
    found = with_those_below(crates)
    for crate in found:
        shutil.copytree(f"{TOP}/crates/{crate}", f"{folder}/crates/{crate}", ignore=shutil.ignore_patterns("out"))
    lines = [listed()[crate] for crate in found]
    if program:
        lines.append(f"{program}: {' '.join(found)}")
    written(f"{folder}/crates.txt", "\n".join(lines) + "\n")
    return f"{folder}/crates/{program or crates[-1]}"
