"""terminal.py COMMAND: the command on a terminal: colours, none where NO_COLOR is set, and a line that says how far a long run is."""

import os
import pty
import subprocess
import sys
import tempfile

COMMAND = os.path.abspath(sys.argv[1])


def seen(words, **more):
    """What a terminal gets, standard error with it, and the exit status."""
    here, there = pty.openpty()
    env = {key: value for key, value in os.environ.items() if key != "NO_COLOR"} | {"TERM": "xterm"} | more
    child = subprocess.Popen([COMMAND, *words], stdin=there, stdout=there, stderr=there, env=env)
    os.close(there)
    out = b""
    while True:
        try:
            part = os.read(here, 65536)
        except OSError:  # the other end is closed
            break
        if not part:
            break
        out += part
    os.close(here)
    return out.decode().replace("\r\n", "\n"), child.wait(timeout=60)


folder = tempfile.TemporaryDirectory()
os.chdir(folder.name)
with open("a.yar", "w") as file:
    file.write("rule a{condition:true}")
counts = "1 file: 1 accepted, 0 with errors, 0 stopped, 0 refused, 0 not read\n"
assert seen(["check", "a.yar"]) == ("a.yar: \x1b[1;32maccepted\x1b[0m\n" + counts, 0)
for quiet in ({"NO_COLOR": "1"}, {"TERM": "dumb"}):
    assert seen(["check", "a.yar"], **quiet) == ("a.yar: accepted\n" + counts, 0)
assert "\x1b[1;32m" in seen(["check", "--color", "always", "a.yar"], NO_COLOR="1")[0]

# Each call within a call takes three times the fuel, so this takes a second or more until it is stopped. The line is taken away before the answer.
with open("long.yar", "w") as file:
    file.write("rule a{condition:" + 16 * "f(" + "1" + 16 * ")" + "}")
out, status = seen(["check", "--color", "never", "--fuel", "8000000", "a.yar", "long.yar"])
first, *lines, last = out.split("\r\x1b[K")
assert first == "a.yar: accepted\n", out
assert lines and set(lines) == {"2 of 2: long.yar"}, out
assert last.startswith("long.yar:1:") and last.endswith("2 files: 1 accepted, 0 with errors, 1 stopped, 0 refused, 0 not read\n"), out
assert status == 2
print("doors: colours and the line of a long run, on a terminal")
