"""Runs the program on stories, on lines that can't be read, and with inputs and outputs that fail, and
compares each output and status.

  python3 trials/lib/stories PROGRAM FAULTS    FAULTS is faults.c, built to be preloaded
"""

import os
import subprocess
import sys
import tempfile

import bad_lines
import caches
import devices
import growth
import indexes
import maps
import tickets

# The most seconds that a run may take.
LONGEST = 60


def run(program, data, faults=None):
    """The output and the status of a run on this input."""
    with tempfile.TemporaryFile() as input:
        input.write(data)
        input.seek(0)
        how = {"stdin": input, "stdout": subprocess.PIPE, "timeout": LONGEST, "env": {**os.environ, **(faults or {})}}
        ran = subprocess.run([program], **how)
    return ran.stdout, ran.returncode


def compare(what, found, expected):
    """Ends the trial, with the first line that differs, if a run's output or status isn't as expected."""
    if found == expected:
        return
    lines, wanted = found[0].split(b"\n"), expected[0].split(b"\n")
    at = next((i for i, pair in enumerate(zip(lines, wanted)) if pair[0] != pair[1]), min(len(lines), len(wanted)))
    sys.exit(f"{what}: status {found[1]}, not {expected[1]}; reply {at + 1}: {lines[at:at + 1]}, not {wanted[at:at + 1]}")


def tell_stories(program):
    stories = [story for module in (maps, caches, indexes, growth, tickets) for story in module.STORIES]
    for name, rows in stories:
        lines, replies = ("\n".join(texts).encode() + b"\n" for texts in zip(*rows))
        compare(name, run(program, lines), (replies, 0))
    return len(stories)


def read_inputs(program):
    inputs = list(bad_lines.inputs())
    for data, output, status in inputs:
        compare(f"{data[:60]}, {len(data)} bytes", run(program, data), (output, status))
    return len(inputs)


def fail_devices(program, faults):
    for piece, after, error, output, status in devices.READS:
        given = {"LD_PRELOAD": faults, "READS": f"{piece},{after},{error}"}
        compare(f"reads {given['READS']}", run(program, devices.SCRIPT, given), (output, status))
    for after, error, output, status in devices.WRITES:
        given = {"LD_PRELOAD": faults, "WRITES": f"5,{after},{error}"}
        compare(f"writes {given['WRITES']}", run(program, devices.BAD_SCRIPT, given), (output, status))
    return len(devices.READS) + len(devices.WRITES)


def talk(program):
    """Each line is sent after the one before it is answered: a reply that waits for more input is never read."""
    with subprocess.Popen([program], stdin=subprocess.PIPE, stdout=subprocess.PIPE, bufsize=0) as running:
        for line, reply in devices.TALK:
            running.stdin.write(line)
            compare(f"after {line}", (running.stdout.readline(), 0), (reply, 0))
        running.stdin.close()
        compare("the end of the talk", (running.stdout.read(), running.wait(LONGEST)), (b"", 0))
    return len(devices.TALK)


def main(program, faults):
    stories, inputs = tell_stories(program), read_inputs(program)
    failing, lines = fail_devices(program, faults), talk(program)
    print(f"{stories} stories, {inputs} inputs, {failing} runs in pieces or with a fault, {lines} lines in turn")


main(*sys.argv[1:])
