#!/bin/bash
# Makes the page in which documents are checked in a browser, playground/unity.html, and tries it:
#
#     bash scripts/playground.sh [--check | --try | --around | --all] [--pictures]
#
# The page is one file with the program in it, as WebAssembly. Each of its answers is compared with that of the native
# program on all of examples/ (under node), its places and pictures with those of scripts/, and the page is driven in
# Debian's chromium, without a window: it fails where anything left the page. What a lecture does with it is tried in
# Debian's firefox-esr too. What can't be tried here, since `node`, a browser, `wasm-opt` or the built program is
# missing, is said, and is a failure with --all alone.
# --check makes nothing, and fails where the page is not the one of the present sources. --try makes nothing either, and
# tries the page that is there. --around puts the page together around the module of the page that is there, which takes
# a second; it is refused where the sources of that module have changed. With --pictures the browser's pictures in
# docs/ are made anew.
# The libraries and the program are those that scripts/test.sh or scripts/build.sh left in crates/*/out.
set -eu
top=$(cd "$(dirname "$0")/.." && pwd)
cd "$top"
built=crates/unity/out/unity
if [ ! -x "$built" ]; then
    built=''
fi
export PYTHONDONTWRITEBYTECODE=1
page=playground/unity.html
here=scripts/playground
makes=1
tries=1
all=''
pictures=''
failed=0
work=$(mktemp -d)
trap 'rm -rf "$work"' EXIT

for word in "$@"; do
    case $word in
        --check) makes='' tries='' ;;
        --try) makes='' ;;
        --around) makes=around ;;
        --all) all=1 ;;
        --pictures) pictures=docs ;;
        *) echo "usage: bash scripts/playground.sh [--check | --try | --around | --all] [--pictures]" >&2; exit 64 ;;
    esac
done

# has NAME FOR: whether there is such a command. Where there is none it says what is not done.
has() {
    if command -v "$1" > /dev/null; then
        return 0
    fi
    echo "$1 is missing, so this was not done: $2"
    if [ -n "$all" ]; then
        failed=1
    fi
    return 1
}

# make_page MODULE: the page of it, or of the module in a page, with the commit in its foot; a star where files have
# changed since.
make_page() {
    local commit
    commit=$(git rev-parse --short=12 HEAD)
    if ! python3 "$here/sources.py" --names | xargs git diff --quiet HEAD --; then
        commit="$commit*"
    fi
    python3 "$here/build.py" "$1" "$work/page.html" "$commit" "$(python3 "$here/sources.py")" \
        "$(python3 "$here/sources.py" --program)"
    cp "$work/page.html" "$page"
}

# make_around: the page anew, with the module that it has, where that is the one of the present sources.
make_around() {
    if grep -q "<span id=\"program-sources\">$(python3 "$here/sources.py" --program)</span>" "$page"; then
        make_page "$page"
    else
        echo "the module in $page is of other sources than the present ones, so the page was not made" >&2
        failed=1
    fi
}

# is_present: whether the page says that it was made of the present sources.
is_present() {
    grep -q "<span id=\"sources\">$(python3 "$here/sources.py")</span>" "$page"
}

# try_part WORD..: runs it, and remembers where it fails.
try_part() {
    "$@" || failed=1
}

# try_heap: the heap in C by itself, and the arithmetic that stands beside it.
# shellcheck disable=SC2317  # (it is called by its name)
try_heap() {
    bash "$here/module.sh" "$work/heap.wasm" --heap && node "$here/try_heap.mjs" "$work/heap.wasm"
}

if [ "$makes" = around ]; then
    make_around
elif [ -n "$makes" ] && has wasm-opt "a new page was not made"; then
    bash "$here/module.sh" "$work/unity.wasm"
    make_page "$work/unity.wasm"
fi
if [ ! -e "$page" ]; then
    echo "there is no $page" >&2
    exit 1
elif is_present; then
    echo "$page is made of the present sources"
else
    echo "$page is made of other sources than the present ones: bash scripts/playground.sh makes it anew"
    failed=1
fi
if [ -z "$tries" ]; then
    exit "$failed"
fi
if has node "the answers, places and pictures were not compared"; then
    if has wasm-opt "the heap was not tried by itself"; then
        try_part try_heap
    fi
    try_part node "$here/try_places.mjs" "$page"
    if [ -n "$built" ]; then
        try_part node "$here/try_answers.mjs" "$page" "$built"
    else
        echo "the program is not built (scripts/build.sh), so the answers were not compared"
        if [ -n "$all" ]; then
            failed=1
        fi
    fi
fi
if has chromium "the page was not tried in a browser"; then
    try_part python3 "$here/try_browser.py" "$page" $pictures
fi
if has firefox-esr "the page was not tried in a second browser"; then
    try_part python3 "$here/try_firefox.py" "$page"
fi
exit "$failed"
