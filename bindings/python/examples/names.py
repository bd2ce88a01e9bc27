"""Prints the names that a shader has once it is preprocessed, each with its bytes: names.py < shader.frag"""
import sys

from libpp import Error, Kind, preprocess

for item in preprocess(sys.stdin.buffer.read(), {"GL_ES": "1"}):
    if isinstance(item, Error):
        sys.exit(f"{item}, {item.start}..{item.end}")
    if item.kind == Kind.IDENT:
        print(f"{item.text} {item.start}..{item.end}")
