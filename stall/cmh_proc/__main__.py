"""Runs one of others' programs for a script, with at most so many megabytes of output and of memory, and seconds:

    python3 cmh_proc [--stdin] SECONDS MEGABYTES OF_MEMORY COMMAND [WORD..]

It has the status of that, or 124 if it takes too long, and 125 if it takes too much.
"""
import os
import sys

sys.dont_write_bytecode = True
sys.path[0] = os.path.dirname(os.path.dirname(os.path.realpath(__file__)))
from cmh_proc.programs import heed_signals  # noqa: E402
from cmh_proc.scripts import result_of  # noqa: E402

MOST_INPUT = 1 << 20


def main() -> int:
    words = sys.argv[1:]
    stdin = sys.stdin.buffer.read(MOST_INPUT) if words[:1] == ["--stdin"] else b""
    seconds, most, resident, *command = words[1:] if words[:1] == ["--stdin"] else words
    status, output = result_of(command, float(seconds), most=int(most) << 20, resident=int(resident) << 20, stdin=stdin)
    sys.stdout.buffer.write(output)
    return status


if __name__ == "__main__":
    heed_signals()
    sys.exit(main())
