#!/bin/sh
# Prints a letter through a filter, with its spool in a new folder: print.sh FOLDER [HOST:PORT]
#
# The letter is written to the file letter.prn of that folder, or sent to the printer that listens at HOST:PORT (usually port 9100) by the
# backend `appsocket`, which detects a printer that resets the connection.
#
# FOLDER is an absolute path of at most 58 bytes without blanks, `=` and characters that a URI cannot contain.
set -eu
folder=$1
printer=${2:-}
here=$(cd "$(dirname "$0")" && pwd)
# shellcheck source=paths
. "$here/paths"
# If the printer cannot be reached for ten seconds, the job waits (`retry-later`). spool_shell has no clock: a later run tries again after
# `clock MOMENT`, 30 seconds later, and `drain 9`. The service (serve.sh) keeps the time by itself.
device=${printer:+appsocket://$printer/?contimeout=10}
mkdir "$folder" "$folder/spool"
sed "s|@libdir@/cegmandi/spool_tools|$spool_tools|" "$here/programs" > "$folder/programs"
sed "s|DEVICE|${device:-spoolfile:$folder/letter.prn}|" "$here/letter.spool" |
    "$spool_shell" --root "$folder/spool" --types "$here/types" \
        --convs "$here/convs" --programs "$folder/programs"
