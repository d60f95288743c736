#!/usr/bin/env bash
# Runs the built program on spoiled guests, spoiled journals and random command lines; see hostile.py, beside this file.
#   tests/hostile.sh [SECONDS [SEED]]      for so many seconds, 120 if not given; the seed is printed
#   tests/hostile.sh --case NUMBER SEED    one case again, whose files are kept
#   DPCLI=PROGRAM                          another program than crates/dpcli/out/dpcli
exec python3 "$(dirname "$(readlink -f "${BASH_SOURCE[0]}")")/hostile.py" "$@"
