# Completion of gvis for bash (4 or later): commands, options, kinds of reports, profiles of ROOT.

# The commands, and what may stand behind each.
declare -gA _gvis_options=(
    [scan]="--certs --fresh --json --keywords --profiles --budget --part"
    [merge]="--certs --from --of --json --keywords --profiles"
    [overlay]="--repo --certs --fresh --json --keywords --profiles --budget"
    [verify]="--certs --report --json --keywords --profiles"
    [session]="--json --keywords --profiles --budget"
    [lint]="--json --keywords --profiles"
    [demo]=""
)
_gvis_alone="help --help --version --prove"
_gvis_keywords="ProfileError ProfileNote MetadataError StaleCache OrphanCache MissingCache NonexistentDeps
    NonsolvableDepsInStable NonsolvableDepsInDev NonsolvableDepsInExp UnsatisfiableRequiredUse UnstatedIuse VisibleVcsPkg"
_gvis_lint_keywords="RequiredUseDefaults RedundantVersion UnknownProfilePackage"

# The path words of the profiles of repositories.
_gvis_profiles() {
    local folder arch path status rest
    for folder; do
        while read -r arch path status rest || [[ $arch ]]; do
            [[ $arch$path == *#* || -z $status || $status == \#* ]] || printf '%s\n' "$path"
        done 2>/dev/null <"$folder/profiles/profiles.desc"
    done
}

# The folders in ROOT that have a layout.
_gvis_repos() {
    local file
    for file in "$1"/*/metadata/layout.conf; do
        [[ -f $file ]] && file=${file%/metadata/layout.conf} && printf '%s\n' "${file##*/}"
    done
}

# Completes the last text of a list between commas; those before it aren't offered again.
_gvis_list() {
    local before= given=$1 lead=$2 word
    [[ $given == *,* ]] && before=${given%,*},
    for word in $3; do
        [[ ,$before == *,$word,* || $before$word != "$given"* ]] || COMPREPLY+=("$lead$before$word")
    done
    compopt -o nospace
}

_gvis() {
    local words=() word current option= value= lead= root= is_value= i
    COMPREPLY=()
    # Readline parts words at `=`, where COMP_WORDBREAKS has it; here --name=value is one word again.
    for ((i = 1; i <= COMP_CWORD; i++)); do
        word=${COMP_WORDS[i]}
        if ((${#words[@]})) && [[ ${words[-1]} == --* && ${words[-1]} != *=?* && ($word == = || ${words[-1]} == *= && ${COMP_WORDS[i - 1]} == =) ]]; then
            words[-1]+=$word
        else
            words+=("$word")
        fi
    done
    current=${words[-1]}
    if ((${#words[@]} == 1)); then
        COMPREPLY=($(compgen -W "${!_gvis_options[*]} $_gvis_alone" -- "$current"))
        return
    fi
    local allowed=${_gvis_options[${words[0]}]-}
    [[ $allowed ]] || return
    # What stands before: options that are taken, the plain word, and whether an option waits for its value.
    for word in "${words[@]:1:${#words[@]}-2}"; do
        if [[ $is_value ]]; then
            is_value=
        elif [[ $word == --* ]]; then
            allowed=" $allowed "
            allowed=${allowed/ ${word%%=*} / }
            case $word in
            *=* | --fresh | --json) ;;
            *) is_value=y option=$word ;;
            esac
        else
            root=$word
        fi
    done
    if [[ $is_value ]]; then
        value=$current
    elif [[ $current == --*=* ]]; then
        option=${current%%=*} value=${current#*=}
        [[ $COMP_WORDBREAKS == *=* ]] || lead=$option=
    elif [[ $current == -* || $root ]]; then
        COMPREPLY=($(compgen -W "$allowed" -- "$current"))
        return
    else
        compopt -o filenames
        mapfile -t COMPREPLY < <(compgen -d -- "$current")
        return
    fi
    root=${root//[\\\"\']/}
    root=${root/#\~\//$HOME/}
    case $option in
    --certs | --report)
        compopt -o filenames
        mapfile -t COMPREPLY < <(compgen -f -P "$lead" -- "$value")
        ;;
    --from)
        # (the files before stay, and the last one is completed)
        compopt -o nospace
        [[ $value == *,* ]] && lead=$lead${value%,*},
        mapfile -t COMPREPLY < <(compgen -f -P "$lead" -- "${value##*,}")
        ;;
    --keywords)
        if [[ ${words[0]} == lint ]]; then _gvis_list "$value" "$lead" "$_gvis_lint_keywords"; else _gvis_list "$value" "$lead" "$_gvis_keywords"; fi
        ;;
    --profiles)
        local folders=("${root:-.}")
        [[ ${words[0]} != overlay ]] || folders=("${root:-.}"/*/)
        _gvis_list "$value" "$lead" "$(_gvis_profiles "${folders[@]}")"
        ;;
    --repo) COMPREPLY=($(compgen -P "$lead" -W "$(_gvis_repos "${root:-.}")" -- "$value")) ;;
    --budget) COMPREPLY=($(compgen -P "$lead" -W "65536 1000000" -- "$value")) ;;
    esac
}
complete -F _gvis gvis
