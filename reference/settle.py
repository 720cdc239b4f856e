"""Reads a job file from standard input and prints what was found."""

import sys

from planner import settle

if __name__ == "__main__":
    sys.stdout.write(settle(sys.stdin.buffer.read()))
