#compdef zaxbriar
# Completes the commands, options and files of zaxbriar.
local -a common own
common=(
    '(-h --help)'{-h,--help}'[print help]'
    '--max-pixels[refuse pictures with more pixels]:number:(10M 100M)'
    '--max-memory[refuse pictures that need more bytes]:bytes:(100M 1G)'
    '--max-passes[refuse files with more scans over all blocks]:number:(0 20 100)'
    '(-o --output)'{-o,--output}'[the file to write]:file:_files'
)
if ((CURRENT == 2)); then
    _values word \
        'pnm[convert files to netpbm or PNG files]' \
        'thumbnail[write pictures that fit within a size]' \
        'info[describe files]' \
        'check[say which files are whole]' \
        'raw[write the bytes of a picture]' \
        'frames[decode the frames of an MJPEG stream, or the images of an MPO file]' \
        'help[print the options of a command]'
    return
fi
if [[ "${words[2]}" == help ]]; then
    _values word pnm thumbnail info check raw frames
    return
fi
case "${words[2]}" in
    pnm)
        own=(
            '--scale[the scale of the width and height]:scale:(1/8 1/4 1/2 1)'
            '--upright[turn the picture upright]'
            '--crop[the part of the picture]:area:(512x512+0+0)'
            '--luma[write the luma alone]'
            '--png[write PNG]'
            '--partial[write the part before a fault]'
        )
        ;;
    thumbnail)
        own=(
            '--max[the size to fit within]:size:(160 320 640x480 1280x960)'
            '--png[write PNG]'
            '--as-stored[do not turn the picture]'
            '--partial[write the part before a fault]'
        )
        ;;
    info)
        own=(
            '--json[write JSON]'
            '--exif[write the Exif data to a file]:file:_files'
            '--thumbnail[write the thumbnail in the Exif data to a file]:file:_files'
            '--xmp[write the XMP data to a file]:file:_files'
            '--extended-xmp[write the extended XMP data to a file]:file:_files'
            '--iptc[write the IPTC data to a file]:file:_files'
            '--icc[write the ICC profile to a file]:file:_files'
        )
        ;;
    check)
        own=(
            '--json[write JSON]'
            '--quiet[say nothing of whole files]'
            '--strict[judge by T.81 instead]'
        )
        ;;
    raw)
        own=(
            '--upright[turn the picture upright]'
            '--crop[the part of the picture]:area:(512x512+0+0)'
            '--luma[write the luma alone]'
        )
        ;;
    frames) own=('--list[write a line for each frame]') ;;
esac
_arguments -s "${common[@]}" "${own[@]}" '1:word:' '*:file:_files'
