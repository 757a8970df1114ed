#!/bin/sh
# Runs the examples in the docstrings of the crates: the code after `# Example`. Each is the body of a test in a module of its own, which
# begins with the `use` lines of the example. There `rt` is a HostRuntime, and `board` and `kernel` are the bytes of examples/board.itb
# and examples/kernel.uimage. They are built and run without a proof.
set -u

root=$(cd "$(dirname "$0")/../.." && pwd)
. "$root/tests/kit"

# examples_of FILE: writes each example of a source as a module `CRATE_MODULE_FUNCTION.rt` of this directory.
examples_of() {
    awk -v crate="$(basename "$(dirname "$(dirname "$1")")")" -v module="$(basename "$1" .rt)" '
        /^ *\/\/\/ # Example$/ { wanted = 1 }
        wanted && /^ *\/\/\/ ```$/ { inside = !inside; if (!inside) { wanted = 0; done = 1 }; next }
        inside { sub(/^ *\/\/\/ ?/, ""); if (/^use /) uses = uses $0 "\n"; else if (NF) body = body "    " $0 "\n" }
        done && /^ *pub fn / {
            match($0, /fn [a-z_]+/)
            name = crate "_" module "_" substr($0, RSTART + 3, RLENGTH - 3) ".rt"
            print uses "use crate::files::{board, kernel};\nuse std::test::Fail;\n" > name
            print "#[test]\nfn example(rt: HostRuntime) -> Result<(), Fail> {" > name
            print "    let (board, kernel) = (board(), kernel());\n" body "    Ok(())\n}" > name
            close(name)
            uses = body = ""
            done = 0
        }' "$1"
}

# function_of_file NAME FILE: prints a function that returns the bytes of a file.
function_of_file() {
    echo "pub fn $1() -> &'static [u8] {"
    echo "    b\"$(od -An -v -tx1 "$2" | tr -d '\n' | sed 's/ /\\x/g')\""
    echo "}"
}

# crate_of_examples NAME LIBRARIES MODULE..: makes a crate of tests over these libraries of these modules, which are in `examples`.
crate_of_examples() {
    test_crate "$1" "$2"
    shift 2
    {
        echo '#![tactic(auto)]'
        printf 'mod files;\n'
        printf 'mod %s;\n' "$@"
    } > "$crate/src/lib.rt"
    { function_of_file board "$root/examples/board.itb" && function_of_file kernel "$root/examples/kernel.uimage"; } > "$crate/src/files.rt"
    for module; do cp "$work/examples/$module.rt" "$crate/src"; done
}

work_in_new_directory
mkdir examples
cd examples || exit 2
for source in $(grep -Rl '^ */// # Example$' "$root"/crates/*/src); do
    examples_of "$source"
done
ls | sed 's/\.rt$//' > ../found
cd ..

# Each of these calls has an example, and each example is one of them, so that none is left out.
cat > calls << END
bi_base_align_new
bi_base_limits_new
bi_commands_extract_extract
bi_commands_update_update
bi_describe_compare_compare
bi_describe_describe_describe
bi_edit_editing_edit_file
bi_fit_fit_read
bi_norm_legacy_build_legacy
bi_norm_normal_form_normalise
bi_report_list_listing
bi_report_verify_verify
END
check "these calls have an example" diff calls found
check "each example is there as often as its heading" test "$(grep -Rh '^ */// # Example$' "$root"/crates/*/src | wc -l)" = "$(wc -l < found)"

# shellcheck disable=SC2046
crate_of_examples examples_of_calls "bi_commands bi_edit bi_norm bi_fit bi_legacy bi_base" $(cat found)
run_tests

# An example that is wrong fails: here with one value that is another one.
sed -i 's/Limits::new(63, 64).is_none()/Limits::new(63, 64).is_some()/' examples/bi_base_limits_new.rt
check "an example is made wrong" grep -q 'new(63, 64).is_some()' examples/bi_base_limits_new.rt
crate_of_examples wrong_example bi_base bi_base_limits_new
try_crate --steps 20000000 --seconds 300 < /dev/null > log 2>&1
check "it fails" grep -q '^test .* FAILED$' log
finish
