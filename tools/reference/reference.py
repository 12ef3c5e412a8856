"""What the programs must print, from an independent program after document 01.

reference.py cases < CASES        the expected output of test_calls
reference.py listing < INPUT      the expected output of the listing program
reference.py verdicts < CASES     the name of each case and the verdict of its text
"""
import sys

import cases
import listing


def main():
    data = sys.stdin.buffer.read()
    mode = sys.argv[1]
    if mode == "listing":
        sys.stdout.write(listing.output(data))
    elif mode == "verdicts":
        sys.stdout.write(cases.verdicts(data))
    else:
        sys.stdout.write(cases.output(data))


main()
