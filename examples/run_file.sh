# What NAME.run says of NAME.elf, for table and why. The names image, run and shape are the caller's.

# The value of a line of NAME.run that holds for the shape: of several, the last.
said() {
    [ -f "$run" ] && awk -v key="$1" -v shape="$shape" '
        /^#/ { next }
        $1 == "on" { off = $2 != shape; next }
        $1 == key && !off { text = substr($0, length(key) + 2); found = 1 }
        END { if (found) print text; exit !found }' "$run"
}

# The file of such a line, beside the image; - where there is no such line.
file() {
    local name
    if name=$(said "$1"); then
        echo "$(dirname -- "$image")/$name"
    else
        echo -
    fi
}
