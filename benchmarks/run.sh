#!/bin/sh
# Measures the proved run beside two C interpreters, and the proved mount beside one in plain C. Prints a table of each.
# See docs/PERFORMANCE.md.
#   benchmarks/run.sh              nanoseconds a step, and microseconds a mount
#   benchmarks/run.sh --callgrind  machine instructions a step and a mount, counted by valgrind
# A path behind either is the libboundary.a of another edition, whose mount is measured beside, in the same run.
set -eu

unit=time
if [ "${1-}" = --callgrind ]; then unit=instructions; shift; fi
case ${1-} in -*) echo "usage: $0 [--callgrind] [LIBRARY]" >&2; exit 2 ;; esac
before=${1:+$(realpath "$1")}

cd "$(dirname "$0")/.."
out=target/benchmarks
mkdir -p "$out"
(cd crates/boundary && rt lib) >"$out/lib.log" 2>&1 || { cat "$out/lib.log" >&2; exit 1; }

# The other edition's functions get names of their own. bench.c only links to them where they are there, so that they have
# to be asked for.
if [ -n "$before" ]; then
    objcopy --redefine-sym nextabur_mount=before_mount --redefine-sym nextabur_run=before_run "$before" "$out/before.a"
    before=$out/before.a
fi

# Four times the same program, its code moved by 16 bytes each.
gcc -O2 -std=c11 -Wall -Wextra -c benchmarks/mount.c -o "$out/mount.o"
places='0 16 32 48'
for place in $places; do
    gcc -O2 -std=c11 -D_POSIX_C_SOURCE=199309L -Wall -Wextra -fno-toplevel-reorder -DPLACE="$place" benchmarks/bench.c \
        "$out/mount.o" crates/boundary/out/libboundary.a ${before:+-Wl,-u,before_mount "$before"} -o "$out/bench$place"
done

if [ "$unit" = time ]; then
    for place in $places; do "$out/bench$place"; done >"$out/rows"
    awk -F '|' -v other="$before" '
        # Of each measured thing, on each job: the times at the places of the code.
        function note(thing, time, key) {
            key = $1 SUBSEP $2 SUBSEP thing
            sum[key] += time; times[key]++
            if (!(key in low) || time < low[key]) low[key] = time
            if (time > high[key]) high[key] = time
        }
        function cell(key) { return sprintf("%.2f (%.2f to %.2f)", sum[key] / times[key], low[key], high[key]) }
        function ratio(job, thing) { return sprintf("%.2f", sum[job SUBSEP 1] / sum[job SUBSEP thing]) }
        function gain(job, thing) { return sprintf("%.1f", sum[job SUBSEP thing] / sum[job SUBSEP 1]) }
        !(($1, $2) in size) {
            size[$1, $2] = $3; jobs[$1, ++count[$1]] = $2
            bytes[$1, $2] = $4; branches[$1, $2] = $5
        }
        $1 == "step" { for (e = 1; e <= 3; e++) note(e, $(3 + e)) }
        $1 == "mount" { for (m = 1; m <= 3; m++) note(m, $(5 + m)) }
        END {
            print "Nanoseconds a step: 100,000,000 steps, best of 3; the mean of 4 places of the code, and the range."
            print ""
            row = "%-20s %6s  %-20s %-20s %-20s %14s %16s\n"
            printf row, "job", "labels", "proved", "checked C", "unchecked C", "proved/checked", "proved/unchecked"
            for (j = 1; j <= count["step"]; j++) {
                name = jobs["step", j]; job = "step" SUBSEP name
                printf row, name, size[job], cell(job SUBSEP 1), cell(job SUBSEP 2), cell(job SUBSEP 3), \
                    ratio(job, 2), ratio(job, 3)
            }
            print ""
            print "Microseconds a mount: 200 mounts, best of 5; the mean of 4 places of the code, and the range."
            print ""
            row = "%-20s %12s %6s %9s  %-25s %-25s %14s  %-29s %13s\n"
            printf row, "job", "instructions", "bytes", "branches", "proved", "plain C", "proved/plain C", \
                other ? "before" : "", other ? "before/proved" : ""
            for (j = 1; j <= count["mount"]; j++) {
                name = jobs["mount", j]; job = "mount" SUBSEP name
                printf row, name, size[job], bytes[job], branches[job], cell(job SUBSEP 1), cell(job SUBSEP 2), ratio(job, 2), \
                    other ? cell(job SUBSEP 3) : "", other ? gain(job, 3) : ""
            }
        }' "$out/rows"
    exit
fi

# The machine instructions of one run of an engine on a job, or of so many mounts of one.
collected() { # ENGINE JOB BUDGET, or MOUNT JOB TIMES
    valgrind --tool=callgrind --callgrind-out-file=/dev/null "$out/bench0" "$1" "$2" "$3" 2>&1 >/dev/null |
        sed -n 's/.*Collected : //p'
}

# Of each of these on a job: the count of so many steps or mounts, less that of none.
counts() { # JOB TIMES ENGINE..
    job=$1 times=$2
    shift 2
    for engine; do
        printf '%s ' $(($(collected "$engine" "$job" "$times") - $(collected "$engine" "$job" 0)))
    done
}

steps=1000000
echo "Machine instructions a step: $steps steps, less a run of none."
echo
printf '%-20s %9s %9s %11s %14s %16s\n' job proved 'checked C' 'unchecked C' proved/checked proved/unchecked
job=0
for name in 'counting loop' 'nest of branches' 'straight arithmetic' 'copies and swaps'; do
    row=$(counts $job $steps proved checked unchecked)
    echo "$row" | awk -v name="$name" -v steps=$steps \
        '{ printf "%-20s %9.2f %9.2f %11.2f %14.2f %16.2f\n", name, $1 / steps, $2 / steps, $3 / steps, $1 / $2, $1 / $3 }'
    job=$((job + 1))
done

mounts=10
echo
echo "Machine instructions a mount: $mounts mounts, less none."
echo
engines="mount-proved mount-plain ${before:+mount-before}"
printf '%-20s %11s %11s %14s %11s\n' job proved 'plain C' proved/plain ${before:+before}
job=0
for name in 'largest' 'most branches' 'longest regions' 'straight arithmetic'; do
    row=$(counts $job $mounts $engines)
    echo "$row" | awk -v name="$name" -v mounts=$mounts \
        '{ printf "%-20s %11.0f %11.0f %14.2f %11s\n", name, $1 / mounts, $2 / mounts, $1 / $2, (NF > 2 ? sprintf("%.0f", $3 / mounts) : "") }'
    job=$((job + 1))
done
