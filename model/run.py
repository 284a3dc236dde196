#!/usr/bin/env python3
"""What the run program prints, by the model: from standard input to standard output."""
import sys

sys.dont_write_bytecode = True
import model

sys.stdout.buffer.write(model.run(sys.stdin.buffer.read()))
