#!/bin/sh
# install.sh PREFIX           installs the built program with its page, its completion, its tools, its units, the
#                             programs that send notices, a configuration and their settings
# install.sh --remove PREFIX  removes what it installed
#
# The program is taken from PROGRAM, if that is set, and else from crates/riemann_server/out. With DESTDIR set all files are
# put below it. With the prefix /usr the configuration is in /etc, and with another one in PREFIX/etc. A configuration or
# settings that are there are kept, and those that were changed are not removed.
set -eu

here=$(cd "$(dirname "$0")" && pwd)
program=${PROGRAM:-$here/../crates/riemann_server/out/riemann_server}
root=${DESTDIR:-}

usage() {
    echo "usage: install.sh [--remove] PREFIX" >&2
    exit 1
}

put() { # MODE FROM TO
    mkdir -p "$(dirname "$3")"
    cp "$2" "$3.new"
    chmod "$1" "$3.new"
    mv "$3.new" "$3"
    echo "installed $3"
}

put_unit() { # NAME
    unit=$(mktemp)
    sed -e "s|@BIN@|$prefix/bin|" -e "s|@LIB@|$prefix/lib/riemann|" -e "s|@ETC@|$etc|" "$here/$1" >"$unit"
    put 644 "$unit" "$units/$1"
    rm "$unit"
}

link_of() { # TOOL: the program that is a link to it
    name=${1##*/} name=${name#riemann-}
    echo "$bin/riemann-${name%.py}"
}

put_tool() { # TOOL
    put 755 "$here/$1" "$lib/${1##*/}"
    ln -sf "../lib/riemann/${1##*/}" "$(link_of "$1")"
    echo "installed $(link_of "$1")"
}

drop_tool() { # TOOL
    drop "$(link_of "$1")"
    drop "$lib/${1##*/}"
}

put_settings() { # MODE NAME
    if [ -e "$settings/$2" ]; then echo "kept $settings/$2"; else put "$1" "$here/$2" "$settings/$2"; fi
}

drop_settings() { # NAME
    if [ ! -e "$settings/$1" ]; then
        :
    elif cmp -s "$settings/$1" "$here/$1"; then
        drop "$settings/$1"
    else
        echo "kept $settings/$1, which was changed"
    fi
}

drop() {
    [ ! -e "$1" ] || { rm "$1" && echo "removed $1"; }
}

remove=no
if [ "${1:-}" = --remove ]; then
    remove=yes
    shift
fi
[ $# -eq 1 ] || usage
prefix=${1%/}
case $prefix in /*) ;; *) usage ;; esac
case $prefix in /usr) etc=/etc ;; *) etc=$prefix/etc ;; esac

bin=$root$prefix/bin
lib=$root$prefix/lib/riemann
tools="riemann-doctor riemann-probe riemann-reload ../tools/event.py ../tools/dump.py"
pages=$root$prefix/share/man/man1
completions=$root$prefix/share/bash-completion/completions
units=$root$prefix/lib/systemd/system
settings=$root$etc/riemann
servers="riemann.service riemann-journal.service"
senders="notices_to_mail.py notices_to_slack.py notices_to_pagerduty.py notices_to_alertmanager.py"

if [ "$remove" = no ]; then
    [ -x "$program" ] || { echo "install.sh: no program at $program: build it first" >&2; exit 1; }
    put 755 "$program" "$bin/riemann"
    put 755 "$here/riemann-journal" "$bin/riemann-journal"
    put 644 "$here/riemann_messages.py" "$lib/riemann_messages.py"
    for tool in $tools; do put_tool "$tool"; done
    put 644 "$here/riemann.1" "$pages/riemann.1"
    put 644 "$here/riemann.bash" "$completions/riemann"
    for name in $servers; do
        put_unit "$name"
        put 644 "$here/service.conf" "$units/$name.d/riemann.conf"
    done
    put_unit riemann-notices@.service
    put 644 "$here/../examples/notices_shared.py" "$lib/notices_shared.py"
    for name in $senders; do put 755 "$here/../examples/$name" "$lib/$name"; done
    put_settings 644 riemann.config
    put_settings 600 notices.conf
else
    drop "$bin/riemann"
    drop "$bin/riemann-journal"
    for tool in $tools; do drop_tool "$tool"; done
    drop "$lib/riemann_messages.py"
    drop "$pages/riemann.1"
    drop "$completions/riemann"
    for name in $servers; do
        drop "$units/$name"
        drop "$units/$name.d/riemann.conf"
        rmdir "$units/$name.d" 2>/dev/null || true
    done
    drop "$units/riemann-notices@.service"
    for name in notices_shared.py $senders; do drop "$lib/$name"; done
    rm -rf "$lib/__pycache__"
    drop_settings riemann.config
    drop_settings notices.conf
    rmdir "$lib" "$settings" 2>/dev/null || true
fi
