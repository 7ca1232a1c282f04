# bash completion for macaroond, made by scripts/build/completions.py

# The names in the key file that the line gives.
_macaroond_key_names() {
    local index file=
    for ((index = 1; index < COMP_CWORD; index++)); do
        [[ ${COMP_WORDS[index]} == --keys ]] && file=${COMP_WORDS[index + 1]}
    done
    [[ -f $file && -r $file ]] && LC_ALL=C sed -n 's/^key \([A-Za-z0-9._-]\{1,64\}\) .*/\1/p' < "$file" | LC_ALL=C sort -u
}

_macaroond() {
    local word=${COMP_WORDS[COMP_CWORD]} before=${COMP_WORDS[COMP_CWORD - 1]} words=() offered
    COMPREPLY=()
    case $before in
        --revoked | --socket | --keys | --verify-socket | --into | --above | --below | --raise | --drop | --drop-first)
            mapfile -t COMPREPLY < <(compgen -f -- "$word")
            compopt -o filenames 2> /dev/null
            return
            ;;
        --mode) words=(600 660 666) ;;
        --verify-mode) words=(600 660 666) ;;
        --http-mode) words=(600 660 666) ;;
        --http-calls-mode) words=(600 660 666) ;;
        --form) words=(v1-text v2-text v2-binary v2-json) ;;
        --key) mapfile -t words < <(_macaroond_key_names) ;;
        --workers | --accept | --idle | --loops | --connections | --drain | --remember | --memory | --names | --verify-names | --verify-connections | --log | --http | --http-anywhere | --http-connections | --http-patience | --http-granted | --http-facts | --http-names | --http-calls | --http-calls-allow | --http-calls-names | --http-allow | --http-admin | --address | --location | --identifier | --caveat | --fact | --at) return ;;
        *)
            if ((COMP_CWORD == 1)); then
                words=(pipe serve listen page keygen check mint attenuate verify inspect status revoke --help --version)
            else
                case ${COMP_WORDS[1]} in
                    pipe) words=(--revoked --help) ;;
                    serve) words=(--socket --keys --workers --accept --keys-of-others --revoked --help) ;;
                    listen) words=(--socket --keys --workers --mode --idle --loops --connections --drain --remember --memory --names --verify-socket --verify-mode --verify-names --verify-connections --replace --log --keys-of-others --revoked --allow-empty-revoked --http --http-anywhere --http-mode --http-connections --http-patience --http-granted --http-facts --http-strict-paths --http-names --http-calls --http-calls-mode --http-calls-allow --http-calls-names --http-allow --http-admin --help) ;;
                    page) words=(--address --keys --revoked --help) ;;
                    keygen) words=(--into --above --below --raise --drop --drop-first --help) ;;
                    check) words=(--keys --revoked --help) ;;
                    mint) words=(--keys --key --location --identifier --caveat --form --help) ;;
                    attenuate) words=(--caveat --form --help) ;;
                    verify) words=(--keys --key --fact --at --revoked --explain --help) ;;
                    inspect) words=(--key --help) ;;
                    status) words=(--socket --prometheus --connections --help) ;;
                    revoke) words=(--into --drop --identifier --help) ;;
                esac
            fi
            ;;
    esac
    # What compgen -W is given is expanded: commands in it are run.
    for offered in "${words[@]}"; do
        [[ $offered == "$word"* ]] && COMPREPLY+=("$offered")
    done
}
complete -F _macaroond macaroond
