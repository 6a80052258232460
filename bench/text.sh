#!/usr/bin/env bash
# Instructions per code point of the program `stream`, counted by callgrind: each text is run in two sizes of eight
# lines each, so what a run or a line costs falls out of the difference. "other": each line has another name than the
# line before, which same_name sees at its first character. "same": the lines differ only in case, so same_name reads
# both to their ends. Run by hand: bench/text.sh
set -euo pipefail
cd "$(dirname "$0")/.."
python3 tools/build.py stream
work=$(mktemp -d)
trap 'rm -r "$work"' EXIT
python3 - "$work" <<'PY'
import sys
TEXTS = {
    "ASCII": "Beat two eggs with sugar and flour, add milk slowly. ",
    "Latin": "Crème brûlée: schlage süße Sahne, füge Käse dazu, año. ",
    "Cyrillic": "Взбейте два яйца с сахаром и мукой, добавьте молоко. ",
    "CJK": "麻婆豆腐三百五十克加入少許鹽和醬油煮十分鐘即可食用。",
}
for name, text in TEXTS.items():
    for size in (1000, 2000):
        line = (text * size)[:size - 1] + text[0]
        for kind in ("other", "same"):
            lines = []
            for i in range(8):
                body = line.upper() if i % 2 else line
                body = body.replace("SS", "ß") if len(body) > size else body
                assert len(body) == size
                lines.append(body if kind == "same" else "%d" % i + body[1:])
            data = "\n".join(lines).encode("utf-8") + b"\n"
            assert len(data) <= 65536
            open("%s/%s-%s-%d" % (sys.argv[1], name, kind, size), "wb").write(data)
PY
count() {
    valgrind --tool=callgrind --callgrind-out-file="$work/out" target/bin/stream <"$work/$1" 2>&1 >/dev/null |
        sed -n 's/.*Collected : //p'
}
# how often a run copies memory
copies() {
    count "$1" >/dev/null
    callgrind_annotate --tree=calling "$work/out" | sed -n 's/.*>.*memcpy[^(]*(\([0-9]*\)x).*/\1/p' | awk '{ n += $1 } END { print n + 0 }'
}
printf '| text | bytes a code point | other names | same names |\n|---|---|---|---|\n'
for name in ASCII Latin Cyrillic CJK; do
    row=""
    for kind in other same; do
        small=$(count "$name-$kind-1000")
        large=$(count "$name-$kind-2000")
        row="$row $(((large - small + 4000) / 8000)) |"
    done
    bytes=$(($(wc -c <"$work/$name-same-2000") - $(wc -c <"$work/$name-same-1000")))
    printf '| %s | %d.%02d |%s\n' "$name" $((bytes / 8000)) $((bytes % 8000 / 80)) "$row"
done
printf '\ncopies of memory in a whole run, Cyrillic: %d with 8,000 code points, %d with 16,000\n' \
    "$(copies Cyrillic-same-1000)" "$(copies Cyrillic-same-2000)"
