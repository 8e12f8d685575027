"""Prints the transcript that `retro run` must write for the script on standard input."""

import sys

sys.dont_write_bytecode = True
sys.setrecursionlimit(100000)

from transcript import transcript


def main():
    text, status = transcript(sys.stdin.buffer.read())
    sys.stdout.buffer.write(text)
    return status


if __name__ == "__main__":
    sys.exit(main())
