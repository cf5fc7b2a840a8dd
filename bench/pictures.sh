#!/bin/bash
# bench/pictures.sh: draws the pictures of README anew, below docs/pictures: what `filgordd explain` prints of the
# point.rs there, the page that `filgordd view` prints of it, as chromium shows it at 1280 columns, and hover.rs in neovim
# beside `filgordd lsp`, with what is shown of a call.
# FILGORDD is the program, by default that of bin/filgordd, which is proved and built first. It needs python3, chromium, tmux
# and nvim.
# shellcheck source=bench/common.sh
. "$(dirname "$(readlink -f "${BASH_SOURCE[0]}")")/common.sh"
program=${FILGORDD-}
if [ -z "$program" ]; then
    "$top/bin/filgordd" expand </dev/null || exit 2
    program=$top/crates/filgordd/out/filgordd
fi
for command in chromium tmux nvim; do
    command -v $command >/dev/null || { echo "pictures: there is no $command" >&2; exit 2; }
done
pictures=$top/docs/pictures
cd "$pictures" || exit 2
{ echo "\$ filgordd explain point.rs" && "$program" explain point.rs 2>&1; } | python3 "$top/bench/pictures/terminal.py" >"$pictures/explain.svg" || exit 2
"$program" view point.rs >"$work/page.html"
chromium --headless --no-sandbox --hide-scrollbars --window-size=1280,330 --screenshot="$pictures/page.png" "$work/page.html" 2>/dev/null || exit 2
screen() { tmux -L pictures "$@"; }
screen new-session -d -x 72 -y 30 "FILGORDD=$program TERM=xterm-256color nvim -u $top/bench/pictures/hover.lua hover.rs"
for ((turn = 0; turn < 50; turn++)); do
    sleep 0.2
    screen capture-pane -p | grep -q 'Point { x: 0, y: 0 }│' && break
done
screen capture-pane -e -p -S 0 -E 11 | python3 "$top/bench/pictures/screen.py" >"$pictures/hover.svg"
screen kill-server
[ "$turn" -lt 50 ] || { echo 'pictures: neovim shows nothing of the call' >&2; exit 1; }
