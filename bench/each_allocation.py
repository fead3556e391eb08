"""Runs the stored scripts of `crates/plays` once for each allocation that they make, and refuses that one.

    python3 bench/each_allocation.py             all allocations of each script
    python3 bench/each_allocation.py 500         the first 500 of each

The program is the one that `rt run` built (crates/plays/out/plays). Each script is run alone: first with ample memory, then with the
first allocation refused, the second, and so on. A run has to write what it writes with ample memory, or end for want of memory
itself, with a status that is not 0 and a beginning of what it writes with ample memory. Any other run is printed, and the exit
status is 1. The other parts are left out, since they show what the server says for want of memory. It needs a C compiler, `cc`.
"""

import sys
import tempfile

sys.dont_write_bytecode = True

from plays import MARK, path_of, stored
from refusing import Refusing


class Program:
    def __init__(self, folder):
        self.path = path_of("out/plays")
        self.refusing = Refusing(folder)

    def run(self, text, refused=0):
        """The status and the output with this allocation refused. 0: none is refused."""
        status, output, _ = self.refusing.run([self.path], text, refused)
        return status, output

    def calls(self):
        return self.refusing.counted()[1]


def try_part(program, part, most):
    """Refuses each allocation of the part in turn, and prints how many runs answered as with ample memory, gave up for memory,
    and did neither. Returns the last of these numbers."""
    name, text = part.split("\n", 1)[0], (MARK + part).removeprefix("\n").encode()
    status, ample = program.run(text)
    assert status == 0, f"{name} ends with status {status} with ample memory"
    many = min(program.calls(), most)
    same = gave_up = wrong = 0
    for refused in range(1, many + 1):
        status, output = program.run(text, refused)
        if status == 0 and output == ample:
            same += 1
        elif status not in (0, -6, -11) and ample.startswith(output):
            gave_up += 1
        else:
            wrong += 1
            print(f"{name}: allocation {refused}: status {status}")
    print(f"{name}: {many} allocations: {same} runs as with ample memory, {gave_up} gave up, {wrong} did neither", flush=True)
    return wrong


def main():
    most = int(sys.argv[1]) if len(sys.argv) > 1 else sys.maxsize
    with tempfile.TemporaryDirectory() as folder:
        program = Program(folder)
        wrong = sum(try_part(program, part, most) for part in stored("stdin", ("script",)))
    sys.exit(1 if wrong else 0)


main()
