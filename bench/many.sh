#!/bin/sh
# Checks many images, each with a call of its own, by one, two and four processes at a time on as many processors: 500 FITs of 2.6 KB,
# and 16 FITs of 16 MiB. Prints a table in Markdown: how many images each way checks in a second, the most of several rounds. The number of
# rounds may be given; it is 5 if not. It takes minutes, and nothing is judged. The images are links to one file.
set -u

root=$(cd "$(dirname "$0")/.." && pwd)
. "$root/tests/setup"
program=$root/crates/bootimg/out/bootimg
rounds=${1:-5}
need_program
work_in_new_directory

# rate PROCESSORS DIRECTORY: images a second, the most of the rounds.
rate() {
    for _ in $(seq "$rounds"); do
        start=$(date +%s%N)
        find "$2" -type f -print0 | taskset -c "0-$(($1 - 1))" xargs -0 -P "$1" -n 1 "$program" check --allow weak-hash || exit 1
        echo "$(find "$2" -type f | wc -l) $(($(date +%s%N) - start))"
    done | awk '{ rate = $1 * 1e9 / $2; if (rate > most) most = rate } END { printf "%.0f", most }'
}

# links FILE COUNT DIRECTORY: fills a new directory with links to the file.
links() {
    mkdir "$3"
    for i in $(seq "$2"); do ln "$1" "$3/$i.itb"; done
}

cp "$root/examples/board.itb" small
noise 1 16777216 > payload
"$program" build-fit -o large k:kernel:arm64:linux:none:0x80000:0x80000:@payload || exit
links small 500 smalls
links large 16 larges
echo "| Images | one processor | two | four |"
echo "|---|---:|---:|---:|"
for images in "2.6 KB:smalls" "16 MiB:larges"; do
    echo "| ${images%:*} | $(rate 1 "${images#*:}") | $(rate 2 "${images#*:}") | $(rate 4 "${images#*:}") |"
done
