#!/bin/sh
# Checks what the gate leaves out: that docs/TRUST.md is as the specs are, the script `spill`, and that
# each bench compiles. Fails at the first that isn't so.
set -eu
top=$(cd "$(dirname "$0")/.." && pwd)
python3 "$top/tools/trust.py" --check
sh "$top/tools/test_spill.sh"
sh "$top/bench/compile.sh"
