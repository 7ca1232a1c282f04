#!/bin/sh
# Puts what `make build` made where it is used, or takes it away again: install.sh install|uninstall.
#
# The environment says where: DESTDIR, for a package's own tree, and in it PREFIX and SYSCONFDIR. The
# launcher looks for the programs beside its own folder, in ../libexec/macaroond, so PREFIX says both.
set -eu
cd "$(dirname "$0")/.."
prefix=${PREFIX-/usr/local} sysconfdir=${SYSCONFDIR-/etc} destdir=${DESTDIR-}
unitdir=${UNITDIR:-$prefix/lib/systemd/system}
zshdir=${ZSHDIR:-$prefix/share/zsh/site-functions}
docdir=$prefix/share/doc/macaroond
version=$(cat VERSION)
date=$(sed -n "s/^## $version (\(.*\))$/\1/p" CHANGELOG.md)

# The mode of each file, the file here, and where it is put. Of a program that may be started and not read, no other
# process of the same user may read the memory.
list() {
    echo 755 built/macaroond "$prefix/bin/macaroond"
    echo 711 libexec/macaroond/x86-64-v2 "$prefix/libexec/macaroond/x86-64-v2"
    echo 711 libexec/macaroond/x86-64-v3 "$prefix/libexec/macaroond/x86-64-v3"
    for page in man/*.[1-9]; do
        echo 644 "$page" "$prefix/share/man/man${page##*.}/${page#man/}"
    done
    echo 644 packaging/macaroond.service "$unitdir/macaroond.service"
    echo 644 packaging/macaroond.socket "$unitdir/macaroond.socket"
    echo 644 packaging/macaroond.sysusers "$prefix/lib/sysusers.d/macaroond.conf"
    echo 644 packaging/macaroond.tmpfiles "$prefix/lib/tmpfiles.d/macaroond.conf"
    echo 644 packaging/macaroond.bash "$prefix/share/bash-completion/completions/macaroond"
    echo 644 packaging/_macaroond "$zshdir/_macaroond"
    for page in README.md CHANGELOG.md SECURITY.md docs/*.md docs/*.svg docs/*.png; do
        echo 644 "$page" "$docdir/$page"
    done
    find examples -type f -not -path '*/__pycache__/*' | sort | while read -r example; do
        echo "$(mode_of "$example")" "$example" "$docdir/$example"
    done
}

# What its owner changes once it is there, so that no installation and no removal touches it.
settings() {
    echo 644 packaging/macaroond.default "$sysconfdir/default/macaroond"
}

mode_of() {
    if [ -x "$1" ]; then echo 755; else echo 644; fi
}

# put MODE FILE WHERE: a page or a unit tells the version and the paths of this installation. The program for newer
# processors is built where one is at hand.
put() {
    [ -e "$2" ] || [ "${2##*/}" != x86-64-v3 ] || return 0
    install -D -m "$1" "$2" "$destdir$3"
    case $2 in
        man/* | packaging/macaroond.service)
            sed -i "s,@VERSION@,$version,g; s,@DATE@,$date,g; s,/usr/bin/,$prefix/bin/,g; s,/etc/,$sysconfdir/,g
                s,/usr/libexec/,$prefix/libexec/,g" "$destdir$3"
            ;;
    esac
}

install_all() {
    if [ ! -x built/macaroond ] || [ ! -x libexec/macaroond/x86-64-v2 ]; then
        echo "install: macaroond isn't built: run make build first, which proves and builds it" >&2
        exit 1
    fi
    list | while read -r mode file where; do
        put "$mode" "$file" "$where"
    done
    settings | while read -r mode file where; do
        [ -e "$destdir$where" ] || put "$mode" "$file" "$where"
    done
    install -d -m 755 "$destdir$sysconfdir/macaroond"
}

# What is put into the folders of macaroond's own alone goes with them; a key file stays.
uninstall_all() {
    list | while read -r _ _ where; do
        rm -f "$destdir$where"
    done
    for folder in "$destdir$docdir" "$destdir$prefix/libexec/macaroond"; do
        [ ! -d "$folder" ] || find "$folder" -depth -type d -empty -delete
    done
}

case ${1-} in
    install) install_all ;;
    uninstall) uninstall_all ;;
    *)
        sed -n 's/^# //p' "$0" | head -n 1 >&2
        exit 2
        ;;
esac
