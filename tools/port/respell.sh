#!/usr/bin/env bash
# respell.sh: brings the repository's own names, and its must-fail edits, to today's spelling, by text alone.
# Run once, at the top of the checkout, right after the kit's port.py, on what landed before the port.
set -e
here=$(dirname "$0")
python3 "$here/aliases.py" --write .   # imports under another name than the library's
python3 "$here/assoc.py" --write .     # associated types behind the parameter that they belong to
"$here/self.sh"                        # members of a bound in the proofs of methods
python3 "$here/snake.py" --write .     # definitions, lemmas, fields and constructors in snake case
python3 "$here/edits.py" --write .     # must-fail edits whose old text stands no more
