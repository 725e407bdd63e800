#!/bin/sh
# Tries ./cells, ./replay and ./coentrift on what people do with them: refusals in words, bad lines, statuses, names of
# files, pipes, a program that is older than a source, with and without rt. From the repository's root, once the three
# programs are built:
#
#     tests/wrappers.sh [SHELL]
#
# runs the three scripts under SHELL (sh if not given), in a copy of the repository without its proofs, with a stand-in
# for rt that proves nothing, and prints `N cases, 0 differ`; or each case that differs, and ends with status 1.
set -u
unset CDPATH
shell=${1-sh}
here=$(cd "$(dirname -- "$0")/.." && pwd) || exit 2
for program in cells replay coentrift; do
    [ -x "$here/crates/$program/out/$program" ] || { echo "tests/wrappers.sh: build ./$program first" >&2; exit 2; }
done
work=$(mktemp -d) || exit 2
trap 'chmod -R u+rwx "$work"; rm -rf "$work"' EXIT

# A copy of what the scripts look at, in a folder whose name has a space, and the tools that they call, without rt.
root="$work/the repository"
mkdir -p "$root/crates" "$work/tools" "$work/rt" "$work/direct"
cp -R "$here/cells" "$here/replay" "$here/coentrift" "$here/wrappers" "$here/crates.txt" "$root"
for crate in "$here"/crates/*/; do
    crate=$(basename "$crate")
    mkdir -p "$root/crates/$crate"
    cp -R "$here/crates/$crate/src" "$root/crates/$crate"
done
cp -R "$here/crates/cells/data" "$root/crates/cells"
for program in cells replay coentrift; do
    mkdir "$root/crates/$program/out"
    cp "$here/crates/$program/out/$program" "$root/crates/$program/out"
done
for tool in awk cat dirname find fold head mkdir mkfifo mktemp readlink rm sed sh tail tee touch tr wc "$shell"; do
    ln -sf "$(command -v "$tool")" "$work/tools/$(basename "$tool")"
done
bare=$work/tools
path=$bare
mkdir "$work/tmp"
export TMPDIR="$work/tmp"

# The stand-in for rt says that two crates are proved, and prints what a program would that it ran.
cat >"$work/rt/rt" <<'END'
#!/bin/sh
echo 'what the program prints'
echo "crate card: modules loaded=294 checked=123" >&2
echo "logic=proved functions=16" >&2
echo "crate keyword: modules loaded=152 checked=48" >&2
echo "logic=proved functions=7" >&2
echo "$*" >>"$RT_CALLED"
[ -z "${RT_STATUS-}" ] || echo "fn header::parse: not proved" >&2
exit "${RT_STATUS-0}"
END
chmod +x "$work/rt/rt"
export RT_CALLED="$work/called"

# ---- tables

records="XTENSION= 'BINTABLE'
BITPIX  = 8
NAXIS   = 2
NAXIS1  = 6
NAXIS2  = 2
PCOUNT  = 0
GCOUNT  = 1
TFIELDS = 2
TFORM1  = '1I'
TTYPE1  = 'POS'
TFORM2  = '1J'
TTYPE2  = 'WT'"

# The request's example, its records changed by a script of sed, at $work/NAME.
table() { # NAME SCRIPT
    {
        { printf '%s\nEND\n' "$records"; } | sed "$2" | while IFS= read -r record; do printf '%-80s' "$record"; done
        printf '%2880s' ''
    } | head -c 2880 >"$work/$1"
    printf '\000\001\000\000\037\100\377\377\000\000\000\052' >>"$work/$1"
}

# ---- cases

cases=0 differ=0

# Runs a script in $work and holds its status, its standard error and its standard output to what is wanted; the file
# $work/want has the last.
expect() { # STATUS ERROR SCRIPT WORDS
    status=$1 error=$2 script=$3
    shift 3
    (cd "$work" && PATH=$path "$shell" "$root/$script" "$@" >"$work/out" 2>"$work/err")
    seen=$?
    cases=$((cases + 1))
    printf '%s' "${error:+$error
}" >"$work/error"
    if [ "$seen" -ne "$status" ] || ! cmp -s "$work/err" "$work/error" || ! cmp -s "$work/out" "$work/want"; then
        differ=$((differ + 1))
        echo "case $cases, $script $*: status $seen, wanted $status; standard error and what was wanted of it:"
        cat "$work/err" "$work/error"
        cmp "$work/out" "$work/want"
    fi
}

check() { # WORDS, AND WHETHER THEY HOLD
    cases=$((cases + 1))
    [ "$2" = yes ] || {
        differ=$((differ + 1))
        echo "case $cases: $1"
    }
}
hold() { if "$@"; then echo yes; else echo no; fi; }

# What the program itself writes of a table and steps is wanted on standard output.
wants() { # PROGRAM [TABLE [STEPS]]
    rm -f "$work/direct/table.fits" "$work/direct/steps.txt"
    [ $# -lt 2 ] || cp "$work/$2" "$work/direct/table.fits"
    [ $# -lt 3 ] || cp "$work/$3" "$work/direct/steps.txt"
    (cd "$work/direct" && "$here/crates/$1/out/$1" >"$work/want")
}
nothing() { : >"$work/want"; }

# A table that is refused by the three programs, with these words.
refused() { # SCRIPT OF SED, WORDS
    table refused.fits "$1"
    refusal "$2" refused.fits
}
refusal() { # WORDS TABLE
    wants cells "$2"
    expect 1 "cells: refused $1" cells "$2"
    expect 1 "replay: refused $1" replay "$2" cell.txt
    expect 1 "coentrift: refused $1" coentrift turn "$2"
}

table table.fits ''
echo cell >"$work/cell.txt"

# the bundled table, the example, links to a script, names of files
cp "$here/crates/cells/stdout" "$work/want"
expect 0 '' cells
wants cells table.fits
expect 0 '' cells table.fits
expect 0 '' cells -- table.fits
cp "$work/table.fits" "$work/a  table.fits"
cp "$work/table.fits" "$work/-table.fits"
cp "$work/table.fits" "$work/-h"
expect 0 '' cells 'a  table.fits'
expect 0 '' cells -table.fits
expect 0 '' cells -- -h
expect 0 '' cells ./-h
ln -s "$root/cells" "$work/link"
root=$work expect 0 '' link table.fits
nothing
expect 2 "cells: no such file: 'none.fits'" cells none.fits
expect 2 "cells: no such file: ''" cells ''
expect 2 "cells: no such file, and no such option: '-x' (./cells --help has the options)" cells -x
expect 2 "cells: a folder and not a file: 'direct'" cells direct
expect 2 "replay: no such file: 'none.txt'" replay table.fits none.txt
expect 2 "replay: a folder and not a file: '.'" replay . cell.txt
if [ "$(id -u)" -ne 0 ]; then
    cp "$work/table.fits" "$work/locked.fits"
    chmod 000 "$work/locked.fits"
    expect 2 "cells: not allowed to read 'locked.fits'" cells locked.fits
fi

# usage and help
expect 2 'usage: ./cells [FILE]
cells: ./cells --help says more' cells one two
for words in '' one 'one two three'; do
    # shellcheck disable=SC2086
    expect 2 'usage: ./replay TABLE STEPS
replay: ./replay --help says more' replay $words
done
for script in cells replay; do
    sed -n "/<<'END'/,/^END/p" "$here/$script" | sed '1d;$d' >"$work/want"
    expect 0 '' "$script" --help
    expect 0 '' "$script" -h
    expect 0 '' "$script" table.fits --help
done

# the refusals of the entry
value() { # NAME RECORD WORDS
    echo "the value of $1, in record $2, counted from 0, is $3"
}
nothing
: >"$work/empty.fits"
refusal '1 0: the file is empty' empty.fits
head -c 2881 "$work/table.fits" | tr E F >"$work/short.fits"
length='the length of the header is above 57,600 or no multiple of 2,880 bytes; a file without END is all header'
refusal "1 0: $length" short.fits
refused 's/^END/XEND/;$!d' "1 0: $length"
head -c 2880 "$work/refused.fits" >"$work/endless.fits"
refusal '2 0: no record is END, so the header has no end' endless.fits
refused "\$i NAXIS   = 'x'" '3 12: NAXIS stands a second time, in record 12, counted from 0'
for missing in XTENSION BITPIX NAXIS NAXIS1 NAXIS2 PCOUNT GCOUNT TFIELDS; do
    refused "s/^$missing *=/OTHER   =/" "4 0: $missing is missing"
done
refused '/^GCOUNT/d;s/^END.*/END\nGCOUNT  = 1/' '4 0: GCOUNT is missing'
refused 's/^TFORM2/TFORM3/' '4 2: TFORM2 is missing'
refused "s/^BITPIX.*/BITPIX  = '8'/" "5 1: $(value BITPIX 1 'no integer that can be read')"
refused 's/^TTYPE2.*/TTYPE2  = 5/' "5 11: $(value TTYPE2 11 'no string that can be read')"
refused 's/BINTABLE/IMAGE/' "6 0: $(value XTENSION 0 "not allowed: 'BINTABLE' is wanted")"
refused 's/^BITPIX.*/BITPIX  = 16/' "6 1: $(value BITPIX 1 'not allowed: 8 is wanted')"
refused 's/^NAXIS .*/NAXIS   = 1/' "6 2: $(value NAXIS 2 'not allowed: 2 is wanted')"
refused 's/^NAXIS2.*/NAXIS2  = -1/' "6 4: $(value NAXIS2 4 'not allowed: it must not be negative')"
refused 's/^GCOUNT.*/GCOUNT  = 2/' "6 6: $(value GCOUNT 6 'not allowed: 1 is wanted')"
refused 's/^TFIELDS.*/TFIELDS = 1000/' "6 7: $(value TFIELDS 7 'not allowed: it must be from 0 to 999')"
range='it must be from NAXIS1 x NAXIS2 to NAXIS1 x NAXIS2 + PCOUNT'
refused "\$i THEAP   = 11" "6 12: $(value THEAP 12 "not allowed: $range")"
refused 's/^NAXIS1.*/NAXIS1  = 1048577/' "7 3: $(value NAXIS1 3 'above the limit of this reader, 1,048,576')"
refused 's/^NAXIS2.*/NAXIS2  = 16777217/' "7 4: $(value NAXIS2 4 'above the limit of this reader, 16,777,216')"
refused 's/^PCOUNT.*/PCOUNT  = 2147483648/' "7 5: $(value PCOUNT 5 'above the limit of this reader, 2,147,483,647')"
refused 's/^TFIELDS.*/TFIELDS = 65/' "7 7: $(value TFIELDS 7 'above the limit of this reader, 64')"
form='a form is a count of 8,388,608 at most, or none, and a letter of L X B A I J E K D C M'
form="$form; or a count of 0 or 1, or none, then P or Q and then one of these letters"
refused 's/1J/3Z/' "8 2: TFORM2 is no form that can be read: $form"
refused 's/1J/2PE/' "8 2: TFORM2 is no form that can be read: $form"
none='the bytes of the columns do not add up to NAXIS1; a field of P or Q with count 0 takes none'
refused 's/1J/1I/' "9 0: $none"
refused 's/1J/0PE/' "9 0: $none"
refused 's/1J/00QD/' "9 0: $none"
need='the data need NAXIS1 x NAXIS2 + PCOUNT bytes'
refused 's/^NAXIS2.*/NAXIS2  = 3/' "10 0: the file is shorter than its header says: $need"
no_number='is not a number that this reader takes, is given twice, or stands at a column whose type has no scaling'
refused "\$i TZERO2  = x" "16 2: TSCAL2 or TZERO2 $no_number: those of B, I, J, K, E and D have one"
no_null='is not an integer of at most 19 digits, is given twice, or stands at a column whose type has no missing values'
refused "\$i TNULL2  = 1.5" "17 2: TNULL2 $no_null: those of B, I, J and K have them"
table large.fits 's/^NAXIS2.*/NAXIS2  = 10443/'
head -c 70000 /dev/zero >>"$work/large.fits"
more='refused 10 0: the table needs more than the first 65,536 bytes of the file, and no more are read'
wants cells large.fits
expect 1 "cells: $more" cells large.fits
expect 1 "replay: $more" replay large.fits cell.txt

# a whole file: a primary header in front
whole='; this looks like a whole FITS file, whose table is an extension'
whole="$whole: cut off what stands before it (README says how)"
table whole.fits '1i SIMPLE  = T
/^XTENSION/d;/^T[FT]/d;/COUNT/d'
refusal "4 0: XTENSION is missing$whole" whole.fits
head -c 2880 "$work/whole.fits" | cat - "$work/table.fits" >"$work/both.fits"
refusal "4 0: XTENSION is missing$whole" both.fits
tail -c +2881 "$work/both.fits" >"$work/cut.fits"
wants cells table.fits
expect 0 '' cells cut.fits

# names of any bytes: only the last line counts
table odd.fits "s/'POS'/'~refused 4 0'/"
LC_ALL=C tr '~' '\n' <"$work/odd.fits" >"$work/line.fits"
wants cells line.fits
expect 0 '' cells line.fits

# a field of P without a descriptor
table without.fits "s/1J/0PE/;s/^NAXIS1.*/NAXIS1  = 2/"
wants cells without.fits
expect 0 '' cells without.fits

# openings that are refused, and a cell: the lines before it are there
no_column='11 0: no column is left in the choice: the table has none, or none of the chosen indexes'
no_column="$no_column, counted from 0, is one of its columns"
table bare.fits 's/^TFIELDS.*/TFIELDS = 0/;s/^NAXIS1.*/NAXIS1  = 0/'
wants cells bare.fits
expect 1 "cells: refused $no_column" cells bare.fits
echo 'choose 9' >"$work/nine.txt"
wants replay table.fits nine.txt
expect 1 "replay: refused $no_column" replay table.fits nine.txt
table outside.fits "s/^TFORM1.*/TFORM1  = '1I'/;s/^NAXIS1.*/NAXIS1  = 10/;s/^NAXIS2.*/NAXIS2  = 1/;s/'1J'/'1PB'/"
wants cells outside.fits
expect 1 'cells: refused 13 1: an array of column 1, counted from 0, ends past the heap' cells outside.fits

# steps: a refused one is an answer, a bad line is none
printf 'choose 1\nrow 1\nseek 2\n' >"$work/steps.txt"
wants replay table.fits steps.txt
expect 0 '' replay table.fits steps.txt
: >"$work/none.txt"
wants replay table.fits none.txt
expect 0 '' replay table.fits none.txt
may="First there may be lines \`choose all\`, \`choose I I ..\`, \`heap on\` and \`heap off\`, then only \`cell\`,"
may="$may \`row N\` with N at most 512, either with the word \`scaled\` after it, and \`seek R\`,"
may="$may with one space between two words and none elsewhere,"
may="$may each line ended by a line feed alone"
printf 'cell\nrow 513\ncell\n' >"$work/steps.txt"
wants replay table.fits steps.txt
expect 1 "replay: bad line 2: it reads 'row 513'. $may" replay table.fits steps.txt
printf 'heap on\r\n' >"$work/steps.txt"
wants replay table.fits steps.txt
expect 1 "replay: bad line 1: it reads 'heap on?'. $may" replay table.fits steps.txt
printf 'cell\n\n' >"$work/steps.txt"
wants replay table.fits steps.txt
expect 1 "replay: bad line 2: it reads ''. $may" replay table.fits steps.txt

# coentrift: the example's rows turned, and what the program says itself
head -c 2880 "$work/table.fits" >"$work/turned.fits"
printf '\000\377\001\377\000\000\000\000\037\000\100\052' >>"$work/turned.fits"
mkdir "$work/in here"
odd="it's
one"
for name in 'a  turned.fits' -turned.fits --help turn 'in here/turned.fits' "$odd"; do
    cp "$work/turned.fits" "$work/$name"
done
cp "$work/turned.fits" "$work/want"
for name in table.fits 'a  table.fits' -table.fits -h 'in here/../table.fits' ./table.fits "$work/table.fits"; do
    expect 0 '' coentrift turn "$name"
done
ln -s "$root/coentrift" "$work/another"
root=$work expect 0 '' another turn table.fits
ln -s ../another "$work/in here/a link"
root="$work/in here" expect 0 '' 'a link' turn table.fits
cp "$work/table.fits" "$work/want"
for name in turned.fits 'a  turned.fits' -turned.fits --help turn 'in here/turned.fits' "$odd"; do
    expect 0 '' coentrift turn-back "$name"
done
# more than the other two read of it
"$here/crates/coentrift/out/coentrift" turn "$work/large.fits" >"$work/large.turned"
check 'a large table is turned' "$(hold [ "$(wc -c <"$work/large.turned")" -eq "$(wc -c <"$work/large.fits")" ])"
cp "$work/large.turned" "$work/want"
expect 0 '' coentrift turn large.fits
cp "$work/large.fits" "$work/want"
expect 0 '' coentrift turn-back large.turned
# README's page, by name and by index, and what is refused of it
cp "$here/crates/coentrift/data/profile.fits" "$work"
sed -n '/^       0      0       80\.1$/,/^```$/p' "$here/README.md" | sed '$d' >"$work/want"
for column in WEIGHT weight 1 01; do
    expect 0 '' coentrift page profile.fits "$column" 0 1
done
printf '%8d %6d %10s\n' 0 0 80.12 0 1 80.25 0 2 -80.25 0 3 -0.04 0 4 '**********' >"$work/want"
expect 0 '' coentrift page ./profile.fits Weight 0 02
echo 'refused 15 0' >"$work/want"
expect 1 'coentrift: refused 15 0: the column is not of form E (PE is another form)' \
    coentrift page profile.fits pos 0 1
for column in 2 '' 'weight ' -1; do
    expect 1 'coentrift: refused 15 0: the table has no such column' coentrift page profile.fits "$column" 0 1
done
expect 1 'coentrift: refused 15 0: there is no edition but 1 and 2' coentrift page profile.fits weight 0 3
echo 'refused 12 2' >"$work/want"
expect 1 'coentrift: refused 12 2: row 2, counted from 0, is no row of the table' \
    coentrift page profile.fits weight 2 1
nothing
usage=$("$here/crates/coentrift/out/coentrift" 2>&1)
check 'usage' "$(hold [ "${usage%%
*}" = 'usage: coentrift turn TABLE' ])"
expect 2 "$usage" coentrift
for words in turn table.fits 'turn table.fits table.fits' 'Turn table.fits' 'table.fits turn' --help \
    '-- turn table.fits' page 'page profile.fits weight 0' 'page profile.fits weight 0 1 1' \
    'page profile.fits weight -1 1' 'page profile.fits weight 0 1.0' 'page profile.fits 18446744073709551616 0 1'; do
    # shellcheck disable=SC2086
    expect 2 "$usage" coentrift $words
done
expect 2 "$usage" coentrift 'turn table.fits'
expect 2 "$usage" coentrift turn table.fits ''
expect 2 "$usage" coentrift '' table.fits
head -c 2097153 /dev/zero >"$work/long.fits"
expect 1 "coentrift: 'long.fits' is longer than 2,097,152 bytes" coentrift turn-back long.fits
rm "$work/long.fits"
echo 'refused 1 0' >"$work/want"
for name in none.fits direct '' "no
file"; do
    expect 1 "coentrift: cannot read '$name', which counts as empty
coentrift: refused 1 0: the file is empty" coentrift turn "$name"
done

# words for every number, those of steps too
"$shell" -c '. "$0/wrappers/words.sh"; words 12 2 x; words 14 4 x; words 15 0 x' "$root" >"$work/out" 2>&1
cat >"$work/want" <<'END'
row 2, counted from 0, is no row of the table
the list is shorter than what is left of the row, 4 cells
docs/FORMAT.md, section 10, does not have this number
END
check 'words of 12, 14 and 15' "$(hold cmp -s "$work/out" "$work/want")"

# pipes: the output goes on, a closed one ends quietly; what is appended stays
wants cells table.fits
(cd "$work" && "$shell" "$root/cells" table.fits 2>err | cat >out)
check 'a pipe' "$(hold cmp -s "$work/out" "$work/want")"
# 2,000 rows, more than a pipe holds
table long.fits 's/^NAXIS2.*/NAXIS2  = 10000/'
head -c 60000 /dev/zero >>"$work/long.fits"
(cd "$work" && { "$shell" "$root/cells" long.fits 2>err; echo $? >status; } | head -n 1 >out)
check 'a closed pipe: its line' "$(hold [ "$(cat "$work/out")" = 'table 2 columns 10000 rows 6 bytes' ])"
check 'a closed pipe: nothing is said' "$(hold [ ! -s "$work/err" ])"
check 'a closed pipe: status 141' "$(hold [ "$(cat "$work/status")" -eq 141 ])"
echo before >"$work/out"
{ echo before; cat "$work/want"; } >"$work/both"
(cd "$work" && "$shell" "$root/cells" table.fits >>out 2>err)
check 'appended' "$(hold cmp -s "$work/out" "$work/both")"
(cd "$work" && head -c 2892 table.fits | "$shell" "$root/cells" /dev/stdin >out 2>err)
check 'a table on standard input' "$(hold cmp -s "$work/out" "$work/want")"
if [ -e /dev/full ]; then
    (cd "$work" && "$shell" "$root/cells" table.fits >/dev/full 2>err)
    check 'a full disk: status 2' "$(hold [ $? -eq 2 ])"
    check 'a full disk: words' "$(hold grep -q '^cells: cannot write the output' "$work/err")"
fi
(cd "$work" && "$shell" "$root/cells" table.fits >&- 2>err)
check 'no standard output: status 2' "$(hold [ $? -eq 2 ])"

# the same of coentrift
cp "$work/turned.fits" "$work/want"
(cd "$work" && "$shell" "$root/coentrift" turn table.fits 2>err | cat >out)
check 'coentrift, a pipe' "$(hold cmp -s "$work/out" "$work/want")"
(cd "$work" && { "$shell" "$root/coentrift" turn large.fits 2>err; echo $? >status; } | head -c 10 >out)
check 'coentrift, a closed pipe: its first bytes' "$(hold [ "$(cat "$work/out")" = 'XTENSION= ' ])"
check 'coentrift, a closed pipe: nothing is said' "$(hold [ ! -s "$work/err" ])"
check 'coentrift, a closed pipe: status 141' "$(hold [ "$(cat "$work/status")" -eq 141 ])"
(cd "$work" && "$shell" "$root/coentrift" turn /dev/stdin <table.fits >out 2>err)
check 'coentrift, a table on standard input' "$(hold cmp -s "$work/out" "$work/want")"
for to in /dev/full '&-'; do
    [ "$to" != /dev/full ] || [ -e /dev/full ] || continue
    (cd "$work" && eval "\"$shell\" \"$root/coentrift\" turn table.fits >$to 2>err")
    check "coentrift, output to $to: status 2" "$(hold [ $? -eq 2 ])"
    check "coentrift, output to $to: words" "$(hold [ "$(cat "$work/err")" = 'coentrift: cannot write the output' ])"
done

# the build: a program that is newer than its sources needs no rt, one that is older or missing does
with() { # PATH STATUS ERROR
    path=$1
    expect "$2" "$3" cells table.fits
}
: >"$RT_CALLED"
wants cells table.fits
with "$bare" 0 ''
with "$work/rt:$bare" 0 ''
check 'rt was not asked' "$(hold [ ! -s "$RT_CALLED" ])"
sleep 1
touch "$root/crates/row/src/lib.rt"
touch "$root/crates/vectors/src/main.rt"
nothing
older='crates/cells/out/cells is older than crates/row/src/lib.rt'
no_rt="and the Rattle toolchain's command rt, which builds it, is not on the PATH"
with "$bare" 2 "cells: $older, $no_rt"
"$shell" -c 'name=cells root=$0; . "$root/wrappers/run.sh"; crates' "$root" >"$work/crates"
many=$(($(wc -l <"$work/crates")))
check 'the crates of cells' "$(hold [ "$(grep -cx 'card\|row\|cells\|vectors\|replay\|io' "$work/crates")" -eq 3 ])"
building=": building, which takes some minutes if all of its $many crates are to be proved
cells: proved card, 1 of at most $many crates
cells: proved keyword, 2 of at most $many crates"
export RT_STATUS=1
with "$work/rt:$bare" 2 "cells: $older$building
fn header::parse: not proved
cells: the build failed"
unset RT_STATUS
wants cells table.fits
with "$work/rt:$bare" 0 "cells: $older$building"
check 'rt was asked for cells' "$(hold [ "$(sort -u "$RT_CALLED")" = 'run' ])"
with "$bare" 0 ''
rm "$root/crates/cells/out/cells"
nothing
with "$bare" 2 "cells: crates/cells/out/cells is not there, $no_rt"
with "$work/rt:$bare" 2 "cells: crates/cells/out/cells is not there$building
cells: the build left no crates/cells/out/cells; remove the folder crates/cells/out and try again"

# coentrift is built in the same way, from its own sources
turns() { # PATH STATUS ERROR
    path=$1
    expect "$2" "$3" coentrift turn table.fits
}
older='crates/coentrift/out/coentrift is older than crates/row/src/lib.rt'
nothing
turns "$bare" 2 "coentrift: $older, $no_rt"
"$shell" -c 'name=coentrift root=$0; . "$root/wrappers/run.sh"; crates' "$root" >"$work/crates"
many=$(($(wc -l <"$work/crates")))
seen=$(grep -cx 'card\|turn\|words\|coentrift\|cells\|replay' "$work/crates")
check 'the crates of coentrift' "$(hold [ "$seen" -eq 4 ])"
building=": building, which takes some minutes if all of its $many crates are to be proved
coentrift: proved card, 1 of at most $many crates
coentrift: proved keyword, 2 of at most $many crates"
export RT_STATUS=1
turns "$work/rt:$bare" 2 "coentrift: $older$building
fn header::parse: not proved
coentrift: the build failed"
unset RT_STATUS
: >"$RT_CALLED"
cp "$work/turned.fits" "$work/want"
mkdir "$work/elsewhere"
export room="$work/elsewhere"
turns "$work/rt:$bare" 0 "coentrift: $older$building"
unset room
check 'a variable of the caller is no folder to build in' "$(hold [ -z "$(ls "$work/elsewhere")" ])"
called="run -- turn $root/crates/coentrift/data/archive.fits"
check 'rt was asked for coentrift' "$(hold [ "$(cat "$RT_CALLED")" = "$called" ])"
turns "$bare" 0 ''
sleep 1
touch "$root/crates/turn/src/lib.rt"
older='crates/coentrift/out/coentrift is older than crates/turn/src/lib.rt'
echo 'refused 1 0' >"$work/want"
path=$work/rt:$bare
expect 1 "coentrift: $older$building
coentrift: refused 1 0: the file is empty" coentrift turn empty.fits
rm "$root/crates/coentrift/out/coentrift"
nothing
turns "$bare" 2 "coentrift: crates/coentrift/out/coentrift is not there, $no_rt"
turns "$work/rt:$bare" 2 "coentrift: crates/coentrift/out/coentrift is not there$building
coentrift: the build left no crates/coentrift/out/coentrift; remove the folder crates/coentrift/out and try again"

# nothing is left behind
check 'no temporary folder is left' "$(hold [ -z "$(ls "$work/tmp")" ])"

echo "$cases cases, $differ differ"
[ "$differ" -eq 0 ]
