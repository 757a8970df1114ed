#!/bin/sh
# Checks that each list of commands, options and values that scripts/lists.py writes is that of the sources. Then changes a list or a
# source in a copy, and shows that this is found, and that the script writes the lists again. The script needs python3, and installs
# Debian's if it is missing and the script runs as root.
set -u

root=$(cd "$(dirname "$0")/../.." && pwd)
. "$root/tests/setup"

need python3 python3
check "the lists are those of the sources" "$root/scripts/lists.py" --check
[ "$failed" = 0 ] || finish
work_in_new_directory
copy_here scripts/lists.py contrib man README.md 'crates/*/src'

# is_found FILE COMMAND LINE: with this file of the copy edited by this command of sed, this line is printed, and the script then writes
# lists in which nothing is found.
is_found() {
    sed -i "$2" "copy/$1"
    ! copy/scripts/lists.py --check > found
    status=$?
    copy/scripts/lists.py && copy/scripts/lists.py --check > again
    [ $? = 0 ] && [ "$status" = 0 ] && grep -Fqx -e "$3" found && [ ! -s again ] || { cat found; false; }
}

table=crates/bootimg/src/command_line/table.rt
check "a list that was edited by hand is found" is_found README.md 's/Find the images inside a file/Find images/' \
    '+| `scan [IMAGE]...` | Find the images inside a file |'
check "a value that is new in the sources is found" is_found crates/bi_legacy/src/codes.rt 's/ 5 => Some("linux"),/& 9 => Some("irix"),/' \
    '+.Cm netbsd , linux , irix , vxworks , u-boot'
check "an option that a command no longer has is found" is_found $table 's/&\[LAYOUT, /\&[/' '-.Op Fl -layout'
check "values that the help has are found" is_found crates/bootimg/src/command_line/table/options.rt 's/from 4 to 1048576"/from 4 to 16"/' '+    [--align]="4 8 16"'
check "a command of another name is found" is_found $table 's/name: "scan"/name: "find"/' '+.Cm find'
finish
