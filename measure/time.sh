#!/bin/sh
# time.sh PROGRAM [--quick] [NAME ..]: the table of `before.txt` for a program (see time.py). Journals lie in /dev/shm.
exec python3 "$(dirname -- "$(readlink -f -- "$0")")/time.py" "$@"
