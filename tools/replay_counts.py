"""The files of crates/dkg_replay that a tool here makes: its cases, and what that crate is to print, which is a line a file of cases and a total."""
import os

REPLAY = os.path.join(os.path.dirname(os.path.dirname(os.path.abspath(__file__))), "crates", "dkg_replay")
STDOUT = os.path.join(REPLAY, "stdout")
DATA = os.path.join(REPLAY, "data")
BAD_SCRIPT = b"3"


def written():
    """How many scripts the files of all forms have, the texts that are none left out."""
    with open(os.path.join(DATA, "forms")) as forms:
        names = forms.read().split()
    count = 0
    for name in names:
        with open(os.path.join(DATA, name + ".cases"), "rb") as cases:
            heads = [line.split(b" ") for line in cases if line.startswith(b"case ")]
        count += sum(1 for head in heads if head[2] != BAD_SCRIPT)
    return count


def put_count(file, cases):
    """Writes there how many cases a file has now."""
    with open(STDOUT) as lines:
        had = [line.split(":") for line in lines]
    counts = {name: int(rest.split()[0]) for name, rest in had if name != "all"}
    counts[file] = cases
    counts["written"] = written()
    counts["all"] = sum(counts.values())
    with open(STDOUT, "w") as lines:
        lines.write("".join(f"{name}: {number} cases, 0 differ\n" for name, number in counts.items()))


def path_of(file):
    return os.path.join(REPLAY, "data", file + ".cases")


def is_kept(file, cases):
    """Whether a file of cases has these."""
    path = path_of(file)
    if not os.path.exists(path):
        return False
    with open(path, "rb") as kept:
        return kept.read() == b"".join(cases)


def check_cases(tool, file, cases):
    """Says where a file of cases isn't what the tool makes, and writes nothing: the status that the tool ends with."""
    if is_kept(file, cases):
        return 0
    print(f"{tool}: crates/dkg_replay/data/{file}.cases isn't what the tool makes: run it, and keep what it writes")
    return 1


def put_cases(file, cases):
    """Writes a file of cases and their count, and says whether they changed."""
    print("the same" if is_kept(file, cases) else "changed")
    with open(path_of(file), "wb") as kept:
        kept.write(b"".join(cases))
    put_count(file, len(cases))
