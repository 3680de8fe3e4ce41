#!/bin/sh
# Mounts a folder again unless it is mounted and responds: mount-again.sh FOLDER
#
# The folder has a mount unit of systemd. A mount whose client has died stays mounted, and every access fails. A mount that hangs is
# abandoned after ten seconds.
set -eu
folder=$1
if timeout 10 mountpoint -q "$folder" && timeout 10 ls "$folder" > /dev/null 2>&1; then
    exit 0
fi
umount -l "$folder" 2> /dev/null || true
systemctl start "$(systemd-escape --path --suffix=mount "$folder")"
