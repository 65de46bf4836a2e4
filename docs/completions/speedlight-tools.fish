# Completion of the companions of speedlight for fish: their forms, and the options that --help of each names.
function __speedlight_tools_options
    set -l words (commandline -opc)
    set -l part
    if string match -qr -- '-(topology|frame)$' $words[1]; and test (count $words) -gt 1
        set part $words[2]
    end
    $words[1] $part --help 2>/dev/null </dev/null | string match -ar -- '--[a-z][a-z-]*' | sort -u
end
function __speedlight_tools_forms
    set -l words (commandline -opc)
    if test (count $words) -eq 1
        $words[1] --help 2>/dev/null </dev/null | string replace -rf '^    ([a-z][a-z-]*)(  .*)?$' '$1' | sort -u
    end
end
for name in explain diagram report topology study frame view
    complete -c speedlight-$name -n 'string match -q -- "-*" (commandline -ct)' -a '(__speedlight_tools_options)'
end
for name in report topology frame
    complete -c speedlight-$name -a '(__speedlight_tools_forms)'
end
