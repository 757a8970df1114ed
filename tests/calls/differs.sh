#!/bin/sh
# Shows that wrong code does something else, where an edit in tests/prover/wrong_bodies has a line `differs:`: its expression has one value
# without the edit, and another with it. The script needs python3, and installs Debian's if it is missing and the script runs as root.
exec "$(dirname "$0")/../prover/wrong_bodies.sh" --differs
