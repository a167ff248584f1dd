#!/bin/sh
# Tries the wrong bodies that stand beside the gate, in crates/NAME/wrong-bodies/: the prover refuses the crate with each of them and
# proves it as it stands. With --check it looks whether each edit, of the gate too, still fits the text that it changes.
#
# usage: [LIBRARIES=FOLDER] bench/wrong_bodies.sh NAME..
#        bench/wrong_bodies.sh --check
#
# Needs Python 3, and the kit but for --check. bench/wrong_bodies.py tells the rest.
exec python3 "$(dirname "$0")/wrong_bodies.py" "$@"
