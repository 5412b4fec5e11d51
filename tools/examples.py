#!/usr/bin/env python3
"""examples.py [--check] COMMAND: runs each command line of docs/EXAMPLES.md, `    $ ..`, and puts what it writes below it; with --check says whether
it stands there already. COMMAND is the program stableglow."""

import os
import subprocess
import sys

PAGE = "docs/EXAMPLES.md"
MARK, INDENT = "    $ ", "    "


def output(line, command):
    path = os.path.dirname(os.path.abspath(command)) + os.pathsep + os.environ["PATH"]
    env = {**os.environ, "PATH": path, "LC_ALL": "C.UTF-8"}
    done = subprocess.run(["bash", "-c", line], env=env, stdout=subprocess.PIPE, stderr=subprocess.STDOUT, timeout=60)
    return [(INDENT + part).rstrip() for part in done.stdout.decode().splitlines()]


def page(lines, command):
    inside, out = False, []
    for line in lines:
        if line.startswith(MARK):
            out.append(line)
            out += output(line[len(MARK) :], command)
            inside = True
        elif not inside or not line.startswith(INDENT):
            out.append(line)
            inside = False
    return out


def main(args):
    check = args[:1] == ["--check"]
    os.chdir(os.path.join(os.path.dirname(os.path.abspath(__file__)), ".."))
    with open(PAGE, encoding="utf-8") as file:
        old = file.read().splitlines()
    new = page(old, args[-1])
    if not check:
        with open(PAGE, "w", encoding="utf-8") as file:
            file.write("\n".join(new) + "\n")
        return 0
    for number, (left, right) in enumerate(zip(old + [""], new + [""]), 1):
        if left != right:
            print(f"{PAGE}:{number}: has {left!r}, and the command writes {right!r}")
            return 1
    print(f"doors: {PAGE} shows what the command writes")
    return 0


if __name__ == "__main__":
    sys.exit(main(sys.argv[1:]))
