#!/usr/bin/env python3
"""cut_output.py PROGRAM: what arrives where standard output fails now and then is a front of the whole output.

The output is a pipe of 4,096 bytes that does not block, so that a write fails whenever the reader is behind. The program
must stop writing at the first failure: a gap with more lines behind it, `end COUNT` among them, would pass for whole.
"""
import fcntl
import os
import subprocess
import sys

RUNS = 40
# MREAD, 60,000 reads in one record, and a byte that is no command: many full buffers, and few bytes left for the last line.
BUS = bytes([1, 0, 1, 0, 0x43, 2, 0, 2, 0]) + (60_000).to_bytes(2, "little") + bytes([1, 0, 1, 0, 0xFF])


def run_whole(program):
    return subprocess.run([program], input=BUS, stdout=subprocess.PIPE, check=True).stdout


def run_cut(program):
    reader, writer = os.pipe()
    fcntl.fcntl(writer, fcntl.F_SETPIPE_SZ, 4096)
    os.set_blocking(writer, False)
    child = subprocess.Popen([program], stdin=subprocess.PIPE, stdout=writer)
    os.close(writer)
    child.stdin.write(BUS)
    child.stdin.close()
    with os.fdopen(reader, "rb") as output:
        arrived = output.read()
    child.wait()
    return arrived


def main():
    program = sys.argv[1]
    whole = run_whole(program)
    if not whole.endswith(b"end 3\n"):
        sys.exit("the whole output lacks its last line")
    cut = 0
    for _ in range(RUNS):
        arrived = run_cut(program)
        if not whole.startswith(arrived):
            sys.exit("what arrived is no front of the whole output: lines stand behind a gap")
        cut += arrived != whole
    if cut == 0:
        sys.exit("no write failed in %d runs" % RUNS)


main()
