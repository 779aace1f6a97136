"""The built programs, for the measurements: what is missing or older than its sources is built before."""
import os, subprocess

TOP = os.path.dirname(os.path.dirname(os.path.abspath(__file__)))


def below(name):
    """The repository's crates that a crate stands on, itself among them."""
    with open(os.path.join(TOP, "crates.txt")) as lines:
        listed = dict(line.split(":") for line in lines if ":" in line and not line.startswith("#"))
    found, waiting = set(), [name]
    while waiting:
        one = waiting.pop()
        if one in listed and one not in found:
            found.add(one)
            waiting += listed[one].split()
    return found


def newest_source(name):
    """When a source of the program was last changed."""
    folders = [os.path.join(TOP, "crates", crate, "src") for crate in below(name)]
    return max(os.path.getmtime(os.path.join(folder, file)) for folder in folders for file in os.listdir(folder))


def program(name):
    """The path of a program."""
    crate = os.path.join(TOP, "crates", name)
    path = os.path.join(crate, "out", name)
    if not os.access(path, os.X_OK) or os.path.getmtime(path) < newest_source(name):
        if os.path.exists(path):
            os.remove(path)
        print(f"building {name}", flush=True)
        subprocess.run(["rt", "run"], cwd=crate, stdin=subprocess.DEVNULL, stdout=subprocess.DEVNULL)
        if not os.access(path, os.X_OK):
            raise SystemExit(f"{name} was not built")
    return path
