"""Answers as the programs should, for `check --self`."""

import sys

import listing
import replay

answer = {"replay": replay.output, "shadelist": listing.output}[sys.argv[1]]
sys.stdout.buffer.write(answer(sys.stdin.buffer.read()))
