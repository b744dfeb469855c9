"""What the engine and its workers have in common."""

import struct

LIBRARY = "KUIFJE_LIBRARY"  # the environment's names for the library
PROGRAM = "KUIFJE_PROGRAM"  # and for the program
NAME = "libkuifje.so.0"
BEGUN = b"+"  # what a worker writes once it has read a question, and before it begins with it
HEAD = struct.Struct("<hQQ")  # of an answer: its status, and the lengths of what was written to out and err
READ_FAILED, WRITE_FAILED, WANT_OF_MEMORY = 3, 4, 12
VERSION_LENGTH = 64  # bytes of the version that a worker writes first
