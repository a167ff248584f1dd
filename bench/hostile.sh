#!/bin/sh
# Runs hostile sources, tables and objects, such as a stranger may hand in, each at doubling sizes, and looks whether time or memory
# grows by more than 2.5 for a doubling.
#
# usage: bench/hostile.sh [--only WORDS] [--all] [--on] [--write FOLDER [--size N]] [PROGRAM]
#
# Runs what ./ds2 runs, or the program that is named. Needs Python 3 alone. bench/hostile.py tells the rest, and bench/hostile_inputs.py
# has the inputs. The last line is `N passed, M failed`, and it ends with status 1 where one has failed.
exec python3 "$(dirname "$0")/hostile.py" "$@"
