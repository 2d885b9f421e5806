#!/usr/bin/env python3
"""Write the vectors of crates/vectors and crates/unsound, or compare them with what is stored.

    python3 tools/make_vectors.py            writes data/, args, stdout of both
    python3 tools/make_vectors.py --check    writes nothing; exit status 1 on a difference

crates/vectors has for each vector data/NAME.day, an event file, and data/NAME.lines, what must be
printed; crates/unsound has data/NAME.dump, a dispatcher as it stands in memory, and in stdout its
number and place. What must be said comes from tools/reference.py and tools/unsound.py, never from the
program under test. The same bytes come out each time.
"""

import argparse
import re
import sys
from pathlib import Path

sys.dont_write_bytecode = True

import days
import unsound
from reference import printed

CRATES = Path(__file__).resolve().parent.parent / "crates"
NAME = re.compile("[a-z0-9]+(-[a-z0-9]+)*")


def check_names(vectors):
    names = [vector.name for vector in vectors]
    for name in names:
        if not NAME.fullmatch(name) or len(name) > 40 or names.count(name) > 1:
            sys.exit(f"{name}: not a short lower-case name of its own")


def lines_of(vector):
    """What the vector prints, which must have the lines that it is there to show."""
    text = printed(vector.data)
    for line in vector.shows:
        if line not in text.splitlines():
            sys.exit(f"{vector.name}: the line `{line}` is not among those printed:\n{text[:3000]}")
    return text


def files_of_days(vectors):
    """Path within the crate's folder, and bytes, of everything that is stored."""
    files = {}
    for vector in vectors:
        files[f"data/{vector.name}.day"] = vector.data
        files[f"data/{vector.name}.lines"] = lines_of(vector).encode()
    files["args"] = "".join(f"{vector.name}.day\n{vector.name}.lines\n" for vector in vectors).encode()
    files["stdout"] = "".join(f"{vector.name}.day ok\n" for vector in vectors).encode()
    return files


def files_of_dumps(vectors):
    """The same; the answers are those worked out by hand, which the definition must give too."""
    files = {}
    for vector in vectors:
        image = unsound.image_of(vector)
        if unsound.unsound(image) != (vector.number, vector.place):
            sys.exit(f"{vector.name}: by the definition {unsound.unsound(image)}")
        files[f"data/{vector.name}.dump"] = image.dump()
    files["args"] = "".join(f"{vector.name}.dump\n" for vector in vectors).encode()
    files["stdout"] = "".join(f"{vector.name}.dump {vector.number} {vector.place}\n" for vector in vectors).encode()
    return files


def stored_paths(folder):
    return {f"data/{path.name}" for path in (folder / "data").glob("*")}


def write(folder, files):
    (folder / "data").mkdir(parents=True, exist_ok=True)
    for path in stored_paths(folder) - set(files):
        (folder / path).unlink()
    for path, data in files.items():
        (folder / path).write_bytes(data)


def differences(folder, files):
    """What is missing, different or not a vector's, in words."""
    found = [f"{folder.name}/{path}: not a file of any vector" for path in sorted(stored_paths(folder) - set(files))]
    for path, data in files.items():
        if not (folder / path).is_file():
            found.append(f"{folder.name}/{path}: missing")
        elif (folder / path).read_bytes() != data:
            found.append(f"{folder.name}/{path}: differs")
    return found


def main():
    parser = argparse.ArgumentParser(description="Write or compare the vectors.")
    parser.add_argument("--check", action="store_true", help="compare with what is stored")
    arguments = parser.parse_args()
    found = []
    for name, vectors, files_of in (
        ("vectors", days.all_vectors(), files_of_days),
        ("unsound", unsound.all_vectors(), files_of_dumps),
    ):
        check_names(vectors)
        files = files_of(vectors)
        if arguments.check:
            found += differences(CRATES / name, files)
        else:
            write(CRATES / name, files)
        size = sum(len(data) for data in files.values())
        print(f"crates/{name}: {len(vectors)} vectors, {size:,} bytes")
    if found:
        sys.exit("\n".join(found))
    print("as stored" if arguments.check else "written")


if __name__ == "__main__":
    main()
