# Runs against deliberately wrong copies; sourced by run and by quick.sh, in their folder, after build.sh. The sets:
#   library    wrong/library/*.edit    a line of ours changed in an unproved copy, against quil-rs
#   oracle     wrong/oracle/*.edit     a line of quil-rs's changed, against the proved library
#   parting    wrong/parting/*.edit    a line of what is expected in place of quil-rs's answer changed, against the proved library
#   chart      wrong/chart/*.edit      a line of the library's table of verdicts, or of the digits that its program writes, changed, against quil-rs
#   steps      wrong/steps/*.edit      a line of ours changed in an unproved copy, call lists against the plain machine
#   conversions  wrong/conversions/*.edit  a line of ours changed in an unproved copy, its conversions as 02 asks, and call lists against the plain machine
#   plain      wrong/plain/*.edit      a line of the plain machine's changed, call lists against the proved library
# An edit with the line `also: chart` changes a verdict: the comparison of the chart alone must notice it too.

# apply EDIT FILE [PLACE]: the line is there exactly once; PLACE is what FILE is a copy of.
apply() {
    OLD=$(sed -n 's/^old: //p' "$1") NEW=$(sed -n 's/^new: //p' "$1") perl -pi -e '
        $found += s/\Q$ENV{OLD}\E/$ENV{NEW}/;
        END { exit($found == 1 ? 0 : 1) }' "$2" || fail "$1 does not apply to ${3:-$2}"
}

# The library's chart, where its edits change it: outside the checkout, in which rt ci refuses a .rt file of no crate.
charts=$(mktemp -d)
trap 'rm -rf "$charts"' EXIT

chart() {
    for file in verdict_table/src/table.rt verdict_digits/stdout; do
        mkdir -p "$charts/${file%/*}"
        cp "../crates/$file" "$charts/$file" || fail "there is no crates/$file"
    done
}

# fresh SET: the copy that its edits change, as it should be.
fresh() {
    case $1 in
    library | steps | conversions) copy ;;
    oracle) sources ;;
    parting) changeable oracle ;;
    chart) chart ;;
    plain) changeable plain ;;
    esac
}

# place EDIT: its file in that copy.
place() {
    file=$(sed -n 's/^file: //p' "$1")
    case $1 in
    wrong/library/* | wrong/steps/* | wrong/conversions/*) echo "target/copy/${file%%/*}/src/${file#*/}.rs" ;;
    wrong/oracle/*) echo "target/quil-rs/src/$file" ;;
    wrong/parting/*) echo "target/oracle/src/$file" ;;
    wrong/chart/*) echo "$charts/$file" ;;
    wrong/plain/*) echo "target/plain/src/$file" ;;
    esac
}

# changed EDIT: applied to that copy.
changed() { apply "$1" "$(place "$1")"; }

# Each edit's line is in its file, which stays as it is: said before the first run, since a line may have moved.
lines_found() {
    mkdir -p target/wrong
    chart
    for edit in wrong/*/*.edit; do
        where=$(place "$edit")
        cp "$where" target/wrong/line || fail "$edit: there is no $where"
        apply "$edit" target/wrong/line "$where"
    done
}

# How many programs or lists a program plays.
amount() {
    case $1 in
    compare | copy) echo --random 20000 --limits 40 ;;
    copy_conversions) echo --words 100000 ;;
    *) echo --lists 20000 ;;
    esac
}

# noticed EDIT PROGRAM [chart]: the comparison with that wrong copy must differ, or that of the chart alone.
noticed() {
    name=${1#wrong/}
    name=${name%.edit}${3:+ (--only $3)}
    what=$(sed -n 's/^# //p' "$1")
    log=target/wrong/$(echo "$name" | tr -d ' ()' | tr / _).log
    if "target/release/$2" --first $(amount "$2") ${3:+--only "$3" --crates "$charts"} >"$log" 2>/dev/null; then
        echo "NOT NOTICED  $name: $what"
        unnoticed=$((unnoticed + 1))
    elif grep -q '^DIFFERS' "$log"; then
        echo "noticed      $name: $what"
        # The smallest program or list as text, its last lines.
        sed -n '/^DIFFERS/,/^$/{/^DIFFERS/d;/^[a-z]* [0-9]*: /d;/^memory of/d;/^journal of/d;/^asked/,$d;/^$/d;s/^/                 /;p}' "$log" |
            tail -n 4
    else
        fail "no comparison with $name: see compare/$log"
    fi
    count=$((count + 1))
}

# agrees PROGRAM: an unproved copy without an edit must agree.
agrees() {
    copy
    build -p copy --bin "$1"
    "target/release/$1" $(amount "$1") >target/wrong/none.log 2>/dev/null ||
        fail "the unchanged copy differs: see compare/target/wrong/none.log"
    echo "agrees       the unproved copy without an edit ($1)"
}

# each SET PACKAGE PROGRAM [chart]: every edit of a set, each on a fresh copy.
each() {
    for edit in wrong/"$1"/*.edit; do
        fresh "$1"
        changed "$edit"
        build -p "$2" --bin "$3" 2>target/wrong/build.log || fail "$edit does not compile: see compare/target/wrong/build.log"
        noticed "$edit" "$3" ${4-}
        also=$(sed -n 's/^also: //p' "$edit")
        [ -z "$also" ] || noticed "$edit" "$3" "$also"
    done
    # The program of the last wrong copy must not be taken for the right one.
    rm -f "target/release/$3"
    fresh "$1"
}

sensitivity() {
    unnoticed=0
    count=0
    lines_found
    for set in ${*:-library oracle parting chart steps conversions plain}; do
        case $set in
        library) agrees copy && each library copy copy ;;
        oracle | parting) each "$set" compare compare ;;
        chart) each chart compare compare chart ;;
        steps) agrees copy_sessions && each steps copy copy_sessions ;;
        conversions)
            agrees copy_conversions && each conversions copy copy_conversions
            agrees copy_sessions && each conversions copy copy_sessions
            ;;
        plain) each plain sessions sessions ;;
        *) fail "no such set: $set" ;;
        esac
    done
    echo "wrong copies $count, not noticed $unnoticed"
    [ "$unnoticed" = 0 ]
}
