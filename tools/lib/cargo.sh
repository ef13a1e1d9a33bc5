# shellcheck shell=bash
# Read by scripts in bash: how they build and test with Debian's own cargo and rustc.

# Goes to the folder of a crate. From here on Debian's own cargo and rustc are used, whatever else stands on the path,
# and what is built goes to the second folder; no settings of a home are taken in. Where Debian has other versions of
# the crates by now than those that cargo once chose, as after an upgrade, it may choose anew.
use_debians_cargo() {
    export PATH=/usr/bin:/bin CARGO_TARGET_DIR=$2 RUSTC=/usr/bin/rustc
    unset RUSTFLAGS RUSTUP_TOOLCHAIN
    cd "$1" || return
    /usr/bin/cargo metadata --format-version 1 --offline --locked >/dev/null 2>&1 || rm -f Cargo.lock
}

# Runs the tests of the crate in this folder, or those of the packages that the words name. A test that can't run here
# says `not run:` and isn't counted. The last line is 'N passed, M failed'; the status is 1 where a test failed, or none
# was built.
test_by_cargo() {
    local said passed failed not_run
    said=$(mktemp)
    /usr/bin/cargo test --release --offline --quiet "$@" 2>&1 | tee "$said" || true
    read -r passed failed < <(awk '/^test result:/ { for (i = 2; i <= NF; i++) { if ($i ~ /^passed;/) passed += $(i - 1)
        if ($i ~ /^failed;/) failed += $(i - 1) } } END { print passed + 0, failed + 0 }' "$said")
    not_run=$(grep -ao 'not run: ' "$said" | wc -l)
    grep -aq '^test result:' "$said" || failed=1
    rm -f "$said"
    [ "$not_run" = 0 ] || echo "tests that were not run here, as said above: $not_run"
    echo "$((passed - not_run)) passed, $failed failed"
    [ "$failed" = 0 ]
}
