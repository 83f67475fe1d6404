"""Reads authenticatorGetInfo's response in hexadecimal from standard input, and prints the algorithms that it names."""

import sys

import puffgrit

info = bytes.fromhex(sys.stdin.read())
for entry in puffgrit.member(info, 0x0A) or []:
    print(entry.get("alg").integer)
