#!/bin/bash
# Runs a command in a clone of this repository on a bare Debian 12, which has the kit, and of Debian only what README asks for:
#
#   tests/set_up/bare_debian.sh ROOM make test    makes the folder ROOM by debootstrap, if it is not there, types README's packages in it as
#                                                 root, and runs the command
#   tests/set_up/bare_debian.sh ROOM umount       takes this machine's devices and kit out of ROOM, which must be done before it is removed
#
# AS=student runs the command as that user, who has no root. KEPT=1 takes what the kit has proved here, KIT=no leaves the kit out. By hand, as
# root: it mounts.
set -euo pipefail
if [ $# -lt 2 ]; then sed -n 's/^# \?//p' "$0" >&2; exit 2; fi
cd "$(dirname "$0")/../.."
room=$(realpath -m "$1") user=${AS:-root} kit=$([ "${KIT-}" = no ] || dirname "$(rt doc)")
shift
if [ "$1" = umount ]; then
    findmnt -rno TARGET | grep "^$room/" | sort -r | xargs -r umount -l
    exit
fi
if [ ! -d "$room/home/student" ]; then
    debootstrap --variant=minbase bookworm "$room" > /dev/null
    cp /etc/resolv.conf /etc/hosts "$room/etc" # debootstrap makes neither, and a browser wants localhost
    # an installed Debian has these too, and of the second a newer Rust
    sed -n 'h; s/ bookworm / bookworm-updates /p; g; s|/debian bookworm |/debian-security bookworm-security |p' "$room/etc/apt/sources.list" \
        > "$room/etc/apt/sources.list.d/newer.list"
    echo 'APT::Get::Assume-Yes "true";' > "$room/etc/apt/apt.conf.d/yes"
    packages=$(sed -n "/^\`\`\`bash\$/,/^\`\`\`\$/ { /^\`\`\`/!p }" README.md)
    DEBIAN_FRONTEND=noninteractive chroot "$room" bash -ec "apt-get update; $packages" > "$room/packages.log" 2>&1 < /dev/null
    chroot "$room" useradd -m student
fi
for folder in /proc /sys /dev $kit ${KEPT:+"$kit-kept"}; do
    mkdir -p "$room$folder"
    mountpoint -q "$room$folder" || { mount --rbind "$folder" "$room$folder" && mount --make-rslave "$room$folder"; }
done
[ -z "$kit" ] || ln -sf "$kit/bin/rt" "$room/usr/local/bin/rt"
home=$(chroot "$room" getent passwd "$user" | cut -d: -f6)
[ -d "$room$home/fhpgas" ] || { git clone -q . "$room$home/fhpgas" && chroot "$room" chown -R "$user:" "$home/fhpgas"; }
chroot "$room" su - "$user" -s /bin/bash -c "cd fhpgas && $(printf '%q ' "$@")"
