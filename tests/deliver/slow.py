"""slow.py COMMAND..: runs the command with its output in a pipe of one page, takes odd pieces of it with rests, and writes them on."""
import fcntl
import os
import subprocess
import sys
import time

read, write = os.pipe()
fcntl.fcntl(read, getattr(fcntl, "F_SETPIPE_SZ", 1031), 4096)
command = subprocess.Popen(sys.argv[1:], stdout=write)
os.close(write)
pieces = 0
while True:
    piece = os.read(read, 1 + 977 * pieces % 3001)
    if not piece:
        break
    sys.stdout.buffer.write(piece)
    pieces += 1
    if pieces % 10 == 0:
        time.sleep(0.001)
sys.exit(command.wait())
