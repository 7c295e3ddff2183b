#!/usr/bin/env bash
# Copies what a person runs, its man pages and completions below a folder, or takes them away again:
#
#     ./install.sh /usr/local
#     ./install.sh --remove /usr/local
set -euo pipefail
here=$(dirname "$(realpath "$0")")
is_removal=
[ "${1:-}" != --remove ] || { is_removal=yes && shift; }
[ $# = 1 ] || { echo "usage: ./install.sh [--remove] FOLDER" >&2; exit 2; }
to=$(realpath -m "$1")
cd "$here"
# The application's command finds its modules where it lies itself, and gemshowal in a folder bin
# beside it.
application=$to/lib/gemshowal

if [ -n "$is_removal" ]; then
    for program in seqaudit seqtool gemshowal seqaudit-node; do
        rm -f "$to/bin/$program" "$to/share/man/man1/$program.1" \
            "$to/share/bash-completion/completions/$program" \
            "$to/share/zsh/site-functions/_$program" \
            "$to/share/fish/vendor_completions.d/$program.fish"
    done
    rm -f "$to/share/man/man5/seqtrace.5"
    rm -rf "$application"
    exit
fi

# The proved program if it was built, else the plain one.
programs=()
for program in seqaudit seqtool gemshowal; do
    for built in "bin/$program" "bin/rust/$program"; do
        [ ! -e "$built" ] || { programs+=("$built") && break; }
    done
done
if [ ${#programs[@]} = 0 ]; then
    echo "Nothing was built yet: 'make rust' builds plain Rust, 'make program' what is proved." >&2
    exit 1
fi
install -D -t "$to/bin" "${programs[@]}"
install -d "$to/share/man/man1" "$to/share/man/man5"
man/seqtrace docs/FORMATS.md >"$to/share/man/man5/seqtrace.5"
if [ -e erlang/ebin/seqaudit_node.beam ]; then
    install -D -t "$application/erlang" erlang/seqaudit-node
    install -D -m 644 -t "$application/erlang/ebin" erlang/ebin/*
    ln -sfn ../../bin "$application/bin"
    ln -sf ../lib/gemshowal/erlang/seqaudit-node "$to/bin/seqaudit-node"
    programs+=(erlang/seqaudit-node)
else
    echo "seqaudit-node isn't installed: make -C erlang builds it (erlc is in Debian's erlang-base)"
fi
for program in "${programs[@]}"; do
    page=${program##*/}.1
    # That of gemshowal is made of its help.
    if [ -e "man/$page" ]; then
        install -m 644 -t "$to/share/man/man1" "man/$page"
    else
        man/gemshowal "$program" >"$to/share/man/man1/$page"
    fi
done
completions/write "$to/share" "${programs[@]}"
echo "In $to: ${programs[*]##*/}, their man pages and completions."
