#!/bin/sh
# Checks docs/bootimg.schema.json: each JSON output of the conformance suite matches the definition of its command, and does not without
# one of its members or with one more, and each branch of the schema has an output. tests/fast/schema.py does this. Then changes the schema
# or an output in a copy, and shows that this is found. The script needs python3, and installs Debian's if it is missing and the script runs
# as root.
set -u

root=$(cd "$(dirname "$0")/../.." && pwd)
. "$root/tests/setup"

need python3 python3
work_in_new_directory
copy_here docs/bootimg.schema.json tests/conformance/vectors.py tests/conformance/vectors

check "the outputs are of the schema" python3 "$root/tests/fast/schema.py" copy
[ "$failed" = 0 ] || finish

# is_found FILE COMMAND LINE: with this file of the copy edited by this command of sed, a line that begins with this is printed.
is_found() {
    cp "copy/$1" original
    sed -i "$2" "copy/$1"
    ! cmp -s original "copy/$1" && ! python3 "$root/tests/fast/schema.py" copy > found && grep -q -e "^$3" found
    status=$?
    cp original "copy/$1"
    [ "$status" = 0 ] || { cat found; false; }
}

check "an output of another form is found" is_found tests/conformance/vectors/json.txt 's/{"concerns":\[\]}/{"concerns":{}}/' 'not of the schema'
check "a member that may be missing is found" is_found docs/bootimg.schema.json 's/, "load", "entry"/, "load"/' 'of the schema after a change'
check "a node inside with a payload is found" is_found tests/conformance/vectors/deep.txt '0,/"name":"%2D"/s//&,"payload":null/' 'not of the schema'
check "a branch of no output is found" is_found docs/bootimg.schema.json 's/"const": "trailing"/"const": "trail"/' 'no output is of the branch'
finish
