"""The program as its pages define it, in plain Python. It takes the words of manifold_tool, and does and says the same.

Usage: python3 benches/reference copy IN OUT, inside FILE X Y Z or run SCRIPT, each with --digits K"""
import os
import sys

from outside import Folder
from program import run

if __name__ == "__main__":
    status, out, err = run([os.fsencode(word) for word in sys.argv[1:]], Folder())
    sys.stdout.buffer.write(out)
    sys.stderr.buffer.write(err)
    sys.exit(status)
