# Completion of kexec's commands, and of kernelyet's further words, for bash: source it. Made by scripts/completion
# of the program's table of arguments and of the companion's parsers.

# What stands behind the option $2 of the command $1.
_kernelyet_value() {
    local said=
    case $1:$2 in
        'boot:--kept') said='choices 1 2' ;;
        'boot:--below') said='nothing' ;;
        'boot:--map') said='files' ;;
        'boot:--type') said='choices raw elf bzimage multiboot' ;;
        'boot:--at') said='nothing' ;;
        'boot:--entry') said='nothing' ;;
        'boot:--command') said='nothing' ;;
        'boot:--initrd') said='files' ;;
        'boot:--purgatory') said='files' ;;
        'load:--below') said='nothing' ;;
        'load:--map') said='files' ;;
        'load:--type') said='choices raw elf bzimage multiboot' ;;
        'load:--at') said='nothing' ;;
        'load:--entry') said='nothing' ;;
        'load:--command') said='nothing' ;;
        'load:--initrd') said='files' ;;
        'load:--purgatory') said='files' ;;
        'load-panic:--map') said='files' ;;
        'load-panic:--command') said='nothing' ;;
        'load-panic:--initrd') said='files' ;;
        'load-panic:--purgatory') said='files' ;;
        'load-panic:--notes') said='files' ;;
        'trace:--swap') said='nothing' ;;
        'boot-resident:--at') said='nothing' ;;
        'drill:--map') said='files' ;;
        'plan:--map') said='files' ;;
        'plan:--ram') said='nothing' ;;
        'plan:--command') said='nothing' ;;
        'plan:--pool') said='files' ;;
        'plan:--notes') said='files' ;;
        'plan:--purgatory') said='files' ;;
        'plan:--below') said='nothing' ;;
        'plan:--keep') said='files' ;;
        'machine:--map') said='files' ;;
        'machine:--core') said='files' ;;
        'machine:--raw') said='files' ;;
        'machine:--ram') said='nothing' ;;
        'machine:--crash') said='nothing' ;;
        'machine:--pages') said='nothing' ;;
        'machine:--flags') said='files' ;;
        'machine:--sysfs') said='files' ;;
        'look steps:--swap') said='nothing' ;;
        'look make-record:--head') said='nothing' ;;
        'look make-record:--control') said='nothing' ;;
        'look make-record:--swap') said='nothing' ;;
        'look make-record:--entry') said='nothing' ;;
        'look make-record:--rax') said='nothing' ;;
        'look make-record:--rbx') said='nothing' ;;
        'look make-record:--rsi') said='nothing' ;;
        'picture plan:--map') said='files' ;;
        'picture plan:--ram') said='nothing' ;;
        'picture plan:--command') said='nothing' ;;
        'picture plan:--pool') said='files' ;;
        'picture plan:--notes') said='files' ;;
        'picture plan:--purgatory') said='files' ;;
        'picture plan:--below') said='nothing' ;;
        'picture plan:--svg') said='files' ;;
        'picture load:--map') said='files' ;;
        'picture load:--svg') said='files' ;;
        'picture list:--record') said='files' ;;
        'picture list:--svg') said='files' ;;
        'parameters:--initrd') said='files' ;;
        'parameters:--kernel') said='files' ;;
        'try:--start') said='nothing' ;;
        'try:--ram') said='nothing' ;;
        'try:--seconds') said='nothing' ;;
        'loaded:--core') said='files' ;;
        'loaded:--raw') said='files' ;;
        'loaded:--map') said='files' ;;
        'loaded:--symbols') said='files' ;;
        'loaded:--btf') said='files' ;;
        'loaded:--loader') said='files' ;;
        'loaded:--proc') said='files' ;;
        'loaded:--sysfs') said='files' ;;
        'guest:--kernel') said='files' ;;
        'guest:--vmlinux') said='files' ;;
        'guest:--busybox') said='files' ;;
        'guest:--ram') said='nothing' ;;
        'guest:--crash') said='nothing' ;;
        'guest:--seconds') said='nothing' ;;
        'guest:--keep') said='files' ;;
    esac
    printf '%s' "$said"
}

_kernelyet() {
    local word=${COMP_WORDS[COMP_CWORD]} command=${COMP_WORDS[1]} options='' words=() said='' own='' place=0 from=2 at value
    COMPREPLY=()
    if [ "$COMP_CWORD" -eq 1 ]; then
        local known='boot load load-panic check dump exec trace migrate sample boot-resident drill core'
        [[ ${COMP_WORDS[0]} == *kexec ]] || known+=' plan machine look compare picture parameters try loaded guest'
        mapfile -t COMPREPLY < <(compgen -W "$known --help" -- "$word")
        return
    fi
    case $command in
        look) own='pages bytes differ record list steps text make-record' ;;
        picture) own='plan load list' ;;
    esac
    if [ -n "$own" ]; then
        if [ "$COMP_CWORD" -eq 2 ]; then
            mapfile -t COMPREPLY < <(compgen -W "$own --help" -- "$word")
            return
        fi
        command="$command ${COMP_WORDS[2]}" from=3
    fi
    case $command in
        'boot') options='--kept --below --map --type --at --entry --command --initrd --purgatory' words=(files files files files files) ;;
        'load') options='--kept --below --map --type --at --entry --command --initrd --purgatory' words=(files files files files files files) ;;
        'load-panic') options='--map --command --initrd --purgatory --notes' words=(files files files files) ;;
        'check') options='' words=(files files) ;;
        'dump') options='' words=(files files) ;;
        'exec') options='--twice' words=(files files files) ;;
        'trace') options='--swap' words=(files files nothing nothing) ;;
        'migrate') options='' words=(files files) ;;
        'sample') options='' words=(nothing) ;;
        'boot-resident') options='--at' words=(files files files files files) ;;
        'drill') options='--map' words=(files files files files) ;;
        'core') options='' words=(files files nothing) ;;
        'plan') options='--map --ram --crash --command --pool --notes --purgatory --below --keep --json' words=(files files) ;;
        'machine') options='--map --core --raw --ram --crash --pages --lowest --check --flags --sysfs' words=(files) ;;
        'look pages') options='--json' words=(files) ;;
        'look bytes') options='--json' words=(files nothing nothing) ;;
        'look differ') options='--json' words=(files files files) ;;
        'look record') options='--json' words=(files) ;;
        'look list') options='--json' words=(files files) ;;
        'look steps') options='--swap --json' words=(files nothing nothing nothing) ;;
        'look text') options='--json' words=(files) ;;
        'look make-record') options='--head --control --swap --entry --rax --rbx --rsi' words=(files files) ;;
        'compare') options='--json' words=(files files files) ;;
        'picture plan') options='--map --ram --crash --command --pool --notes --purgatory --below --svg' words=(files files) ;;
        'picture load') options='--map --svg' words=(files files) ;;
        'picture list') options='--kept --record --svg --check --make' words=(files) ;;
        'parameters') options='--initrd --kernel --json' words=(files) ;;
        'try') options='--start --ram --seconds' words=(files) ;;
        'loaded') options='--crash --all --copies --core --raw --map --symbols --btf --loader --proc --sysfs' words=(files) ;;
        'guest') options='--kernel --vmlinux --busybox --ram --crash --seconds --keep --loaded' words=() ;;
    esac
    # the positional words before this one
    for ((at = from; at < COMP_CWORD; at++)); do
        value=$(_kernelyet_value "$command" "${COMP_WORDS[at]}")
        if [ -n "$value" ]; then
            at=$((at + 1))
            [ "$at" -eq "$COMP_CWORD" ] && said=$value
        elif [[ ${COMP_WORDS[at]} != -* ]]; then
            place=$((place + 1))
        fi
    done
    [ "$place" -lt "${#words[@]}" ] || place=$((${#words[@]} - 1))
    case $said in
        choices*) mapfile -t COMPREPLY < <(compgen -W "${said#choices}" -- "$word") && return ;;
        nothing) return ;;
        '')
            if [[ $word == -* ]]; then
                mapfile -t COMPREPLY < <(compgen -W "$options --help" -- "$word")
                return
            fi
            [ "$place" -ge 0 ] && said=${words[place]}
            ;;
    esac
    if [ "$said" = files ]; then
        compopt -o filenames 2>/dev/null
        mapfile -t COMPREPLY < <(compgen -f -- "$word")
    fi
}

complete -F _kernelyet ./kexec kernelyet scripts/kernelyet
