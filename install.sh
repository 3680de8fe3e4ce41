#!/bin/sh
# Installs the built programs where Debian expects them, or removes them.
#
#   install.sh [--lp] [--stock-filters] [--programs FOLDER] PREFIX     after ./build.py, as install.sh /usr/local
#   install.sh --remove PREFIX
#
# PREFIX is absolute, as /usr/local. If DESTDIR is set in the environment, the files are written below that folder, and the paths in them
# are those of PREFIX. packaging/deb makes a package of them in this way. FOLDER has the programs to install, by default those of crates/.
#
#   PREFIX/bin                   spool; with --lp also lp, lpr, lpstat, cancel, lpq, lprm, lpoptions, lpmove, cupsenable, cupsdisable,
#                                cupsaccept and cupsreject
#   PREFIX/lib/cegmandi/bin      these, without --lp, so that they do not replace those of CUPS: put this folder first in PATH
#   PREFIX/sbin                  spool_shell, spool_service, spool_ipp, spool_admin
#   PREFIX/lib/cegmandi          spool_tools, avahi-service.py, copy-spool.py, import-cups.py, job-log.py, watch-spool.py, through, the
#                                wrappers of stock filters and their PPD, and the manifest: the list of all installed files
#   PREFIX/lib/systemd/system    cegmandi.service, cegmandi-ipp.service
#   PREFIX/lib/sysusers.d        cegmandi.conf: the users of the unit, for systemd-sysusers(8)
#   PREFIX/share                 man pages, the completions for bash, zsh and fish, the README and the examples
#   /etc/cegmandi                the files that the unit names, with the stock filters of CUPS if /usr/lib/cups/filter exists or with
#                                --stock-filters; PREFIX/etc/cegmandi if PREFIX is neither /usr nor /usr/local
#
# The script never overwrites a file that it did not install or that was changed since: it fails before it changes anything. A file below
# etc that exists is kept unchanged. A second install removes the first one before it writes its own files. --remove keeps and names the
# files that were changed since they were installed. If an install is killed, --remove removes the files that it has written.
set -eu

usage() {
    sed -n '2,/^set -eu/s/^# \{0,1\}//p' "$0"
    exit 2
}

fail() {
    echo "install.sh: $*" >&2
    exit 1
}

remove=
lp=
with_filters=
programs=
while [ $# -gt 0 ]; do
    case $1 in
    --remove) remove=yes ;;
    --lp) lp=yes ;;
    --stock-filters) with_filters=yes ;;
    --programs)
        if [ $# -lt 2 ] || [ ! -d "$2" ]; then usage; fi
        programs=$(cd "$2" && pwd)
        shift
        ;;
    /*) break ;;
    *) usage ;;
    esac
    shift
done
[ $# -eq 1 ] || usage
prefix=${1%/}
case $prefix in
*[!A-Za-z0-9._/-]* | */../* | */..) fail "PREFIX may contain only letters, digits and . _ - /, and no part may be .." ;;
esac
root=${DESTDIR:-}
root=${root%/}
[ -d "$root/" ] || fail "the folder $root does not exist"
here=$(cd "$(dirname "$0")" && pwd)
library=$prefix/lib/cegmandi
manifest=$library/manifest
case $prefix in
/usr | /usr/local) etc=/etc/cegmandi ;;
*) etc=$prefix/etc/cegmandi ;;
esac
work=$(mktemp -d)
trap 'rm -rf "$work"' EXIT
trap 'exit 1' HUP INT TERM

sum_of() {
    sha256sum < "$1" | cut -d ' ' -f 1
}

# Whether the file or link of a line of the manifest has not changed since it was installed.
is_ours() {
    case $1 in
    link) [ -L "$root$3" ] && [ "$(readlink "$root$3")" = "$2" ] ;;
    *) [ -f "$root$3" ] && [ ! -L "$root$3" ] && [ "$(sum_of "$root$3")" = "$2" ] ;;
    esac
}

# Removes the files and links of the manifest, in reverse order, and then the folders that install.sh created and that are empty.
uninstall() {
    sed '1!G;h;$!d' "$root$manifest" > "$work/list"
    while read -r kind value path; do
        if [ "$kind" = made ]; then
            continue
        fi
        rm -f "$root$path.new"
        if is_ours "$kind" "$value" "$path"; then
            rm -f "$root$path"
        elif [ -e "$root$path" ] || [ -L "$root$path" ]; then
            echo "kept, because it was changed: $root$path"
        fi
    done < "$work/list"
    rm -f "$root$manifest"
    while read -r kind value path; do
        if [ "$kind" = made ]; then
            rmdir "$root$path" 2> /dev/null || true
        fi
    done < "$work/list"
}

# Creates a folder and its parents, and adds each folder that did not exist to the manifest.
make_folder() {
    if [ ! -d "$root$1" ]; then
        make_folder "$(dirname "$1")"
        echo "made - $1" >> "$work/made"
        mkdir "$root$1"
        list_made
    fi
}

# Adds the created folders to the manifest once its own folder exists.
list_made() {
    if [ -d "$root$library" ]; then
        cat "$work/made" >> "$root$manifest"
        : > "$work/made"
    fi
}

# The two actions on an item, given its kind, mode, source and path: check fails if its source cannot be read or if another file has its
# path, and put installs it.
check() {
    [ "$1" = link ] || [ -r "$3" ] || fail "cannot read $3"
    if [ "$1" = config ]; then
        return
    fi
    if [ -e "$root$4" ] || [ -L "$root$4" ]; then
        line=$(awk -v path="$4" '$3 == path { print $1, $2, $3 }' "$work/ours")
        # shellcheck disable=SC2086 # three words without blanks
        if [ -z "$line" ] || ! is_ours $line; then
            fail "$root$4 already exists, and was changed or was not installed by this script"
        fi
    fi
}

put() {
    kind=$1 mode=$2 source=$3 path=$4
    if [ "$kind" = config ] && [ -e "$root$path" ]; then
        echo "kept, because it exists: $root$path"
        return
    fi
    make_folder "$(dirname "$path")"
    if [ "$kind" = link ]; then
        echo "link $source $path" >> "$root$manifest"
        ln -s "$source" "$root$path"
    else
        echo "$kind $(sum_of "$source") $path" >> "$root$manifest"
        # A link of either name is replaced, not followed.
        cp -T --remove-destination "$source" "$root$path.new"
        chmod "$mode" "$root$path.new"
        mv -T "$root$path.new" "$root$path"
    fi
}

# Writes a copy of a file of the repository with the paths of this install, and prints the path of the copy.
filled() {
    mkdir -p "$work/filled/$(dirname "$1")"
    sed -e "s|@bindir@|$prefix/bin|g" -e "s|@sbindir@|$prefix/sbin|g" -e "s|@libdir@|$prefix/lib|g" -e "s|@sysconfdir@|${etc%/*}|g" \
        "$here/$1" > "$work/filled/$1"
    echo "$work/filled/$1"
}

# The path of a built program.
built() {
    if [ -n "$programs" ]; then
        echo "$programs/$1"
    else
        echo "$here/crates/$1/out/$1"
    fi
}

program() {
    "$1" file 755 "$(built "$2")" "$3"
}

programs() {
    front "$1"
    for name in spool_shell spool_service spool_ipp spool_admin; do
        program "$1" $name "$prefix/sbin/$name"
    done
    program "$1" spool_tools "$library/spool_tools"
    for name in avahi-service.py copy-spool.py import-cups.py job-log.py watch-spool.py through with-cups-env as-pages; do
        "$1" file 755 "$here/examples/office/$name" "$library/$name"
    done
    "$1" file 644 "$here/examples/office/paper.ppd" "$library/paper.ppd"
}

front() {
    program "$1" spool_front "$prefix/bin/spool"
    "$1" file 644 "$here/completions/spool.bash" "$prefix/share/bash-completion/completions/spool"
    "$1" file 644 "$here/completions/_spool" "$prefix/share/zsh/vendor-completions/_spool"
    "$1" file 644 "$here/completions/spool.fish" "$prefix/share/fish/vendor_completions.d/spool.fish"
    for name in lp lpr lpstat cancel lpq lprm lpoptions lpmove cupsenable cupsdisable cupsaccept cupsreject; do
        if [ -n "$lp" ]; then
            "$1" link - spool "$prefix/bin/$name"
        else
            "$1" link - ../../../bin/spool "$library/bin/$name"
        fi
    done
}

# The systemd units, and the files that they name.
unit() {
    for name in cegmandi.service cegmandi-ipp.service; do
        "$1" file 644 "$(filled examples/office/$name)" "$prefix/lib/systemd/system/$name"
    done
    "$1" file 644 "$here/examples/office/cegmandi.sysusers" "$prefix/lib/sysusers.d/cegmandi.conf"
    named=$(grep -o '@sysconfdir@/cegmandi/[A-Za-z0-9._-]*' "$here/examples/office/cegmandi.service" | sed 's|.*/||' | sort -u)
    for name in $named; do
        example=$name
        if [ "$name" = programs ] && { [ -n "$with_filters" ] || [ -d "$root/usr/lib/cups/filter" ]; }; then
            example=stock-programs
        fi
        "$1" config 644 "$(filled "examples/office/$example")" "$etc/$name"
    done
}

texts() {
    for page in "$here"/docs/man/*.[1-9]; do
        "$1" file 644 "$page" "$prefix/share/man/man${page##*.}/$(basename "$page")"
    done
    for name in README.md docs/STOCK.md docs/first-page.png; do
        "$1" file 644 "$here/$name" "$prefix/share/doc/cegmandi/$name"
    done
    (cd "$here" && find examples -type f ! -name paths ! -path '*/__pycache__/*') | sort > "$work/examples"
    while read -r file; do
        mode=644
        [ ! -x "$here/$file" ] || mode=755
        case $file in
        *.service | *.in) text=$(filled "$file") ;;
        *) text=$here/$file ;;
        esac
        "$1" file $mode "$text" "$prefix/share/doc/cegmandi/${file%.in}"
    done < "$work/examples"
}

each() {
    programs "$1"
    unit "$1"
    texts "$1"
}

if [ -n "$remove" ]; then
    [ -f "$root$manifest" ] || fail "nothing is installed in $root$prefix: $root$manifest does not exist"
    uninstall
    exit 0
fi

for name in spool_front spool_shell spool_service spool_ipp spool_admin spool_tools; do
    [ -x "$(built $name)" ] || fail "$(built $name) does not exist: run ./build.py first"
done
: > "$work/made"
: > "$work/ours"
[ ! -f "$root$manifest" ] || cp "$root$manifest" "$work/ours"
each check
[ ! -f "$root$manifest" ] || uninstall
umask 022
make_folder "$library"
each put
echo "installed in $root$prefix; to remove: install.sh --remove $prefix"
