# Completes the commands, options and files of zaxbriar.
_zaxbriar() {
    local word="${COMP_WORDS[COMP_CWORD]}" before="${COMP_WORDS[COMP_CWORD - 1]}"
    local options='-h --help -o --output --max-pixels --max-memory --max-passes'
    local words='pnm thumbnail info check raw frames'
    if [ "$COMP_CWORD" -eq 1 ]; then
        mapfile -t COMPREPLY < <(compgen -W "$words help --help --version" -- "$word")
        return
    fi
    if [ "${COMP_WORDS[1]}" = help ]; then
        mapfile -t COMPREPLY < <(compgen -W "$words" -- "$word")
        return
    fi
    case "${COMP_WORDS[1]}" in
        pnm) options+=' --scale --upright --crop --luma --png --partial' ;;
        thumbnail) options+=' --max --png --as-stored --partial' ;;
        info) options+=' --json --exif --thumbnail --xmp --extended-xmp --iptc --icc' ;;
        check) options+=' --json --quiet --strict' ;;
        raw) options+=' --upright --crop --luma' ;;
        frames) options+=' --list' ;;
    esac
    case "$before" in
        --scale) options='1/8 1/4 1/2 1' ;;
        --crop) options='512x512+0+0' ;;
        --max) options='160 320 640x480 1280x960' ;;
        --max-pixels) options='10M 100M' ;;
        --max-memory) options='100M 1G' ;;
        --max-passes) options='0 20 100' ;;
        *)
            if [ "${word#-}" = "$word" ]; then
                mapfile -t COMPREPLY < <(compgen -f -- "$word")
                return
            fi
            ;;
    esac
    mapfile -t COMPREPLY < <(compgen -W "$options" -- "$word")
}
complete -o filenames -F _zaxbriar zaxbriar
