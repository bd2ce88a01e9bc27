"""Prints the tokens that a shader has once it is preprocessed, with what it includes from the folder in which it is
run: including.py < shader.frag"""
import sys
from pathlib import Path

from libpp import Error, Glsl, IncludeLine, stream


def text_of(line: IncludeLine) -> bytes:
    return Path(line.rest.split('"')[1]).read_bytes()


for item in stream(sys.stdin.buffer.read(), rules=Glsl(450), budget=10**8, includes=text_of):
    if isinstance(item, Error):
        sys.exit(str(item))
    print(item.text)
