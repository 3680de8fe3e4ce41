#!/bin/sh
# Runs the service in a new folder, prints a letter, and shuts the service down: serve.sh FOLDER
#
# The printers are files in the folder: FOLDER/desk and so on. FOLDER is an absolute path of at most 58 bytes without blanks, `=` and
# characters that a URI cannot contain.
set -eu
folder=$1
here=$(cd "$(dirname "$0")" && pwd)
# shellcheck source=paths
. "$here/paths"
mkdir "$folder" "$folder/spool"
sed "s|@libdir@/cegmandi/spool_tools|$spool_tools|" "$here/programs" > "$folder/programs"
"$spool_service" --root "$folder/spool" --types "$here/types" --convs "$here/convs" \
    --programs "$folder/programs" --children 6 --quiet &
service=$!
socket=$folder/spool/spool.sock
sed "s|DEVICE|spoolfile:$folder|" "$here/queues.spool" | "$spool" say --socket "$socket"
"$spool" say --socket "$socket" < "$here/letters.spool"
"$spool" say --until-end --socket "$socket" shutdown
wait "$service"
