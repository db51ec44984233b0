# What examples/run compares: the calls of the program `$program` in the folder `$work`, counted in `$count`, and what is wrong in
# `$failed`.

# where the disk is full, that is why something differs
stop_where_full() {
    why=$(dd if=/dev/zero of="$work/probe" bs=65536 count=1 2>&1) || {
        echo "run: $work/probe cannot be written: $(printf '%s\n' "$why" | sed -n '1s/.*: //p')" >&2
        exit 2
    }
    rm "$work/probe"
}

bad() {
    stop_where_full
    failed=$((failed + 1))
    echo "examples: $1" >&2
}

# expect STATUS WORD..: the program ends so, and prints what stands on standard input
expect() {
    cat 2>/dev/null >"$work/wanted" || stop_where_full
    wanted=$1
    shift
    count=$((count + 1))
    (cd "$work" && "$program" "$@" >printed 2>said)
    status=$?
    [ "$status" -eq "$wanted" ] || bad "'kexec $*' ended with $status, and not with $wanted: $(cat "$work/said")"
    cmp -s "$work/printed" "$work/wanted" || bad "'kexec $*' printed other lines: $(cat "$work/printed")"
}

# refuses STATUS SENTENCE WORD..: the program ends so, says the sentence on standard error last, prints nothing, and
# leaves no file `out`
refuses() {
    wanted=$1
    sentence=$2
    shift 2
    count=$((count + 1))
    (cd "$work" && "$program" "$@" >printed 2>said)
    status=$?
    [ "$status" -eq "$wanted" ] || bad "'kexec $*' ended with $status, and not with $wanted: $(cat "$work/said")"
    [ "$(tail -n 1 "$work/said")" = "$sentence" ] || bad "'kexec $*' said another sentence: $(cat "$work/said")"
    [ ! -s "$work/printed" ] || bad "'kexec $*' printed: $(cat "$work/printed")"
    [ ! -e "$work/out" ] || bad "'kexec $*' wrote its output"
}

# shows LINE WORD..: the program ends with status 2, prints what was asked for, with this line last, and says nothing
shows() {
    line=$1
    shift
    count=$((count + 1))
    (cd "$work" && "$program" "$@" >printed 2>said)
    status=$?
    [ "$status" -eq 2 ] || bad "'kexec $*' ended with $status, and not with 2: $(cat "$work/said")"
    [ "$(tail -n 1 "$work/printed")" = "$line" ] || bad "'kexec $*' printed: $(cat "$work/printed")"
    [ ! -s "$work/said" ] || bad "'kexec $*' said: $(cat "$work/said")"
}

# quits STATUS WORD..: the program ends so and says nothing, where nobody reads what it prints
quits() {
    wanted=$1
    shift
    count=$((count + 1))
    # the reader is gone before the program writes: it has closed the pipe once the file is there
    (cd "$work" && rm -f closed && {
        until [ -e closed ]; do sleep 0.1; done
        "$program" "$@" 2>said
        echo $? >ended
    } | { exec <&- && : >closed; })
    [ "$(cat "$work/ended")" -eq "$wanted" ] || bad "'kexec $*' ended with $(cat "$work/ended"), and not with $wanted"
    [ ! -s "$work/said" ] || bad "'kexec $*' said: $(cat "$work/said")"
}

# digest SUM FILE
digest() {
    count=$((count + 1))
    printf '%s  %s\n' "$1" "$2" | (cd "$work" && sha256sum -c >/dev/null 2>&1) || bad "$2 has other bytes"
}
