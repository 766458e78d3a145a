"""Counts and hashes standard input: how many bytes, and their SHA-256 digest."""
import hashlib
import sys

count, digest = 0, hashlib.sha256()
while piece := sys.stdin.buffer.read(1 << 20):
    count += len(piece)
    digest.update(piece)
print(count, digest.hexdigest())
