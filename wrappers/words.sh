# What a refusal means, in words (docs/FORMAT.md, section 10), for ./cells and ./replay.
# shellcheck shell=sh

# The name in a record of a table that a refusal's place gives: it is a used name, of capitals and digits.
name_in() { # TABLE RECORD
    tail -c "+$((80 * $2 + 1))" "$1" | head -c 8 | LC_ALL=C tr -cd 'A-Z0-9'
}

# The first of the required names that no record before END has with a value.
first_missing() { # TABLE
    LC_ALL=C tr -c ' -~' '?' <"$1" | LC_ALL=C fold -b -w 80 | LC_ALL=C awk '
        length($0) == 80 && /^END *$/ { exit }
        substr($0, 9, 2) == "= " { seen[substr($0, 1, 8)] }
        END {
            count = split("XTENSION BITPIX NAXIS NAXIS1 NAXIS2 PCOUNT GCOUNT TFIELDS", names, " ")
            for (k = 1; k <= count; k++) if (!(sprintf("%-8s", names[k]) in seen)) { print names[k]; exit }
        }'
}

# A whole FITS file begins with the record SIMPLE.
whole_file() { # TABLE
    [ "$(head -c 10 "$1" | LC_ALL=C tr -c ' -~' '?')" = 'SIMPLE  = ' ]
}

wanted_value() { # NAME
    case $1 in
    XTENSION) echo "'BINTABLE' is wanted" ;;
    BITPIX) echo '8 is wanted' ;;
    NAXIS) echo '2 is wanted' ;;
    GCOUNT) echo '1 is wanted' ;;
    TFIELDS) echo 'it must be from 0 to 999' ;;
    THEAP) echo 'it must be from NAXIS1 x NAXIS2 to NAXIS1 x NAXIS2 + PCOUNT' ;;
    *) echo 'it must not be negative' ;;
    esac
}

limit_of() { # NAME
    case $1 in
    NAXIS1) echo 1,048,576 ;;
    NAXIS2) echo 16,777,216 ;;
    PCOUNT) echo 2,147,483,647 ;;
    TFIELDS) echo 64 ;;
    esac
}

say_all() { printf '%s' "$@"; echo; }

words() { # NUMBER PLACE TABLE
    at="record $2, counted from 0"
    case $1 in
    3 | 5 | 6 | 7) used=$(name_in "$3" "$2") ;;
    esac
    case $1 in
    1)
        if [ -s "$3" ]; then
            say_all 'the length of the header is above 57,600 or no multiple of 2,880 bytes; ' \
                'a file without END is all header'
        else
            echo 'the file is empty'
        fi
        ;;
    2) echo 'no record is END, so the header has no end' ;;
    3) echo "$used stands a second time, in $at" ;;
    4)
        if [ "$2" -gt 0 ]; then
            echo "TFORM$2 is missing"
        else
            missing=$(first_missing "$3")
            echo "${missing:-a required keyword} is missing"
        fi
        ;;
    5)
        case $used in
        XTENSION | TFORM* | TTYPE*) echo "the value of $used, in $at, is no string that can be read" ;;
        *) echo "the value of $used, in $at, is no integer that can be read" ;;
        esac
        ;;
    6) echo "the value of $used, in $at, is not allowed: $(wanted_value "$used")" ;;
    7) echo "the value of $used, in $at, is above the limit of this reader, $(limit_of "$used")" ;;
    8)
        say_all "TFORM$2 is no form that can be read: a form is a count of 8,388,608 at most, or none, and a " \
            'letter of L X B A I J E K D C M; or a count of 0 or 1, or none, then P or Q and then one of these ' \
            'letters'
        ;;
    9) echo 'the bytes of the columns do not add up to NAXIS1; a field of P or Q with count 0 takes none' ;;
    10)
        if [ "$(wc -c <"$3")" -gt 65536 ]; then
            echo 'the table needs more than the first 65,536 bytes of the file, and no more are read'
        else
            echo 'the file is shorter than its header says: the data need NAXIS1 x NAXIS2 + PCOUNT bytes'
        fi
        ;;
    11)
        say_all 'no column is left in the choice: the table has none, or none of the chosen indexes, ' \
            'counted from 0, is one of its columns'
        ;;
    12) echo "row $2, counted from 0, is no row of the table" ;;
    13) echo "an array of column $2, counted from 0, ends past the heap" ;;
    14) echo "the list is shorter than what is left of the row, $2 cells" ;;
    16)
        say_all "TSCAL$2 or TZERO$2 is not a number that this reader takes, is given twice, or stands at a column " \
            'whose type has no scaling: those of B, I, J, K, E and D have one'
        ;;
    17)
        say_all "TNULL$2 is not an integer of at most 19 digits, is given twice, or stands at a column whose type " \
            'has no missing values: those of B, I, J and K have them'
        ;;
    *) echo 'docs/FORMAT.md, section 10, does not have this number' ;;
    esac | if [ "$1" -le 4 ] && whole_file "$3"; then
        printf '%s; ' "$(cat)"
        say_all 'this looks like a whole FITS file, whose table is an extension: ' \
            'cut off what stands before it (README says how)'
    else
        cat
    fi
}

# What is wrong with a line of a file of steps, and what a line may be (docs/FORMAT.md, section 17).
bad_line() { # LINE STEPS
    text=$(LC_ALL=C sed -n "$1p" "$2" | head -c 40 | LC_ALL=C tr -c ' -~\n' '?')
    say_all "it reads '$text'. First there may be lines \`choose all\`, \`choose I I ..\`, \`heap on\` and " \
        "\`heap off\`, then only \`cell\`, \`row N\` with N at most 512, either with the word \`scaled\` after it, and " \
        '`seek R`, with one space between two words and none elsewhere, each line ended by a line feed alone'
}
