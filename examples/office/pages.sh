#!/bin/sh
# Prints a document on six queues whose printers are files: pages.sh FOLDER FILE [COPIES]
#
# It creates FOLDER. Each file in it has the bytes for one kind of printer: page.pdf, page.ps, page.pwg, page.raster, page.pclxl, and page.raw,
# which is the document unchanged. It requires the filters of CUPS (Debian's package cups-filters). If there is no chain of filters for the
# document, the reply is `unprintable`.
#
# FOLDER is an absolute path of at most 58 bytes without blanks, `=` and characters that a URI cannot contain.
set -eu
folder=$1 file=$2 copies=${3:-1}
here=$(cd "$(dirname "$0")" && pwd)
# shellcheck source=paths
. "$here/paths"
size=$(($(wc -c < "$file")))
name=$(basename "$file" | tr -c 'A-Za-z0-9._\n-' _)
mkdir "$folder" "$folder/spool"
sed "s|@libdir@/cegmandi/spool_tools|$spool_tools|; s|@libdir@/cegmandi|$here|" "$here/stock-programs" > "$folder/programs"

# Prints the commands for a queue and a job: the job's number, the suffix of the printer's file, and the type that the printer accepts.
job() {
    echo "queue $2 spoolfile:$folder/page.$2 $3 abort-job"
    echo "create $2 ann \"$name\" $copies 50 \"media=A4\""
    at=0
    while [ "$at" -lt "$size" ]; do
        part=$((size - at < 65536 ? size - at : 65536))
        echo "send $1 $part"
        tail -c "+$((at + 1))" "$file" | head -c "$part"
        echo
        at=$((at + part))
    done
    echo "close $1 $name"
}

{
    job 1 pdf application/vnd.cups-pdf
    job 2 ps application/vnd.cups-postscript
    job 3 pwg image/pwg-raster
    job 4 raster application/vnd.cups-raster
    job 5 pclxl application/vnd.hp-pclxl
    job 6 raw application/octet-stream
    echo drain 20
    echo jobs
} | "$spool_shell" --root "$folder/spool" --size 67108864 --types "$here/types" --convs "$here/convs" \
    --programs "$folder/programs"
