"""Registers one job over and over on one connection of `./nsd pipe`, and prints how much memory a registration keeps.

    python3 bench/registrations.py            20,000 and then 200,000 registrations
    python3 bench/registrations.py 1000000    another number instead of 200,000

It prints the difference of the two runs' greatest resident memory, divided by the registrations. Nothing is collected
while the program runs, so this is what each registration leaves, and the room that tables hold for more.
"""

import os
import subprocess
import sys
import tempfile

FEW = 20_000
BODY = b'{"Job":{"ID":"web","TaskGroups":[{"Name":"g","Tasks":[{"Name":"t"}]}]}}'
REQUEST = b"POST /v1/jobs HTTP/1.1\r\nX-Nomad-Token: root\r\nContent-Length: %d\r\n\r\n%s" % (len(BODY), BODY)


def greatest_memory(number, folder):
    """The greatest resident memory of a run, in kilobytes."""
    source = os.path.join(folder, "requests")
    with open(source, "wb") as file:
        for _ in range(number):
            file.write(REQUEST)
    with open(source, "rb") as given:
        program = subprocess.Popen(["./nsd", "pipe", "--bootstrap", "root"], stdin=given, stdout=subprocess.DEVNULL)
        _, status, usage = os.wait4(program.pid, 0)
    if status != 0:
        sys.exit(f"nsd ended with status {os.waitstatus_to_exitcode(status)}")
    return usage.ru_maxrss


def main():
    many = int(sys.argv[1]) if len(sys.argv) > 1 else 200_000
    if many <= FEW:
        sys.exit(f"more than {FEW} registrations are needed")
    with tempfile.TemporaryDirectory() as folder:
        low, high = greatest_memory(FEW, folder), greatest_memory(many, folder)
    print(f"{FEW} registrations: {low} kB, {many} registrations: {high} kB")
    print(f"{(high - low) * 1024 / (many - FEW):.0f} bytes a registration")


if __name__ == "__main__":
    main()
