# shellcheck shell=bash
# Completion of the words of the tools, each waltigon-NAME, for bash: options, and then files, but for the words of
# waltigon-live that take none.
_waltigon() {
    local word=${COMP_WORDS[COMP_CWORD]} before=${COMP_WORDS[COMP_CWORD - 1]} options='' offered='' takes_files=yes
    local radios=''
    case ${1##*/} in
    waltigon-capture-from-report) options='--network --out' ;;
    waltigon-capture-from-run) options='--clutter --out --program' ;;
    waltigon-config-from-hostapd) options='--open --out' ;;
    waltigon-explain) options='--program --said --lines' offered='check run play live' ;;
    waltigon-frame)
        options='--config --ssid --rates --listen --current --algorithm --number --reason --payload --aid --aid-octets'
        options+=' --to --from --body --duration --sequence --direct --doze --retry --more'
        offered='probe auth join rejoin disassoc deauth data null poll wired' takes_files=''
        ;;
    waltigon-live)
        options='--phy --wire --wires --share --monitor --by --country --idle --no-update --program --bridge --record --record-limit --tables --status --status-host --status-from --station-metrics --names --as-root --json --watch --since'
        offered='kick reload status events check-networks check-radio'
        if [ "$COMP_CWORD" != 1 ]; then
            case ${COMP_WORDS[1]} in
            kick | reload) options='--phy' takes_files='' ;;
            status) options='--phy --json --watch' takes_files='' ;;
            events) options='--phy --since' takes_files='' ;;
            check-networks) options='--wire --wires --program' ;;
            check-radio) options='--by' takes_files='' radios=$(ls /sys/class/ieee80211 2>/dev/null) ;;
            esac
        fi
        ;;
    waltigon-live-demo) options='--program --stay' takes_files='' ;;
    waltigon-picture) options='--out --from --to --station --network --overview --stations --program' ;;
    waltigon-report-to-json) options='--without-frames' ;;
    waltigon-status) options='--demo --names --host --from --station-metrics' ;;
    waltigon-trace-from-capture)
        options='--wire --config --networks-of --network --channel --beacons-of --every --heard-only --fcs'
        ;;
    esac
    COMPREPLY=()
    case $before in
    --by) mapfile -t COMPREPLY < <(compgen -W 'active-monitors managed access-points' -- "$word") ;;
    --config) mapfile -t COMPREPLY < <(compgen -f -- "$word") ;;
    --fcs) mapfile -t COMPREPLY < <(compgen -W 'auto yes no' -- "$word") ;;
    --phy) mapfile -t COMPREPLY < <(compgen -W "$(ls /sys/class/ieee80211 2>/dev/null)" -- "$word") ;;
    --ssid | --rates | --listen | --current | --algorithm | --number | --reason | --payload | --aid | --aid-octets | \
        --body | --duration | --sequence) ;;
    --network | --beacons-of | --station | --stations | --from | --to | --channel | --every | --said | --wire | --share | \
        --monitor | --country | --idle | --tables | --status | --status-host | --status-from | --host | --since) ;;
    *)
        if [[ $word == -* ]]; then
            mapfile -t COMPREPLY < <(compgen -W "$options --help --version" -- "$word")
        else
            [ "$COMP_CWORD" = 1 ] || offered=$radios
            mapfile -t COMPREPLY < <(compgen -W "$offered" -- "$word"; [ -z "$takes_files" ] || compgen -f -- "$word")
        fi
        ;;
    esac
}
complete -o filenames -F _waltigon waltigon-capture-from-report waltigon-capture-from-run waltigon-config-from-hostapd \
    waltigon-explain waltigon-frame waltigon-live waltigon-live-demo waltigon-picture waltigon-report-to-json \
    waltigon-status waltigon-trace-from-capture
