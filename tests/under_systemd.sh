#!/bin/sh
# docs/OPERATING.md by its own lines over its own paths and ports, by systemd itself: `operating.sh system` in namespaces of its
# own, over an overlay of this machine's root in memory, so that nothing of the machine is changed. systemd runs there as the
# first process, and of the machine's units only its journal. Needs root, systemd, util-linux, a kernel with overlays and control
# groups, and what operating.sh needs; where one of these isn't there it says so, with status 0. Three minutes.
here=$(cd "$(dirname "$0")/.." && pwd) || exit 1
"$here/vnfm" --version || exit 1
if [ "$(id -u)" != 0 ] || [ ! -x /lib/systemd/systemd ] || ! unshare --pid --fork --mount --cgroup true 2>/dev/null; then
    echo "systemd can't be run here in namespaces of its own; operating.sh tries the rest"
    exit 0
fi

room=$(mktemp -d /var/tmp/vnfm-systemd.XXXXXX) || exit 1
groups=''
for hierarchy in /sys/fs/cgroup /sys/fs/cgroup/unified /sys/fs/cgroup/systemd; do
    [ ! -w "$hierarchy/cgroup.procs" ] || groups="$groups $hierarchy/${room##*/}"
done
trap 'for group in $groups; do find "$group" -depth -type d -exec rmdir {} + ; done 2>/dev/null; rm -rf "$room"' EXIT

mkdir "$room/root" "$room/share" || exit 1
cat >"$room/boot" <<'END'
#!/bin/sh
# In the namespaces: lays the overlay, and begins systemd on it.
room=$1 here=$2
layers=$room/root
mount -t tmpfs tmpfs "$layers" && mkdir "$layers/upper" "$layers/work" "$layers/root" || exit 1
root=$layers/root
mount -t overlay overlay -o "lowerdir=/,upperdir=$layers/upper,workdir=$layers/work" "$root" || exit 1
# (nothing of the machine is started, mounted or set by systemd: no unit is wanted, devices are new ones, and the kernel's
# settings can only be read)
rm -rf "$root"/etc/systemd/system/* "$root"/lib/systemd/system/*.wants
mount -t proc proc "$root/proc" && mount --bind "$root/proc/sys" "$root/proc/sys" || exit 1
mount -o remount,bind,ro "$root/proc/sys" && mount -t sysfs -o ro sysfs "$root/sys" || exit 1
mount -t tmpfs tmpfs "$root/sys/fs/cgroup" && mount -t cgroup2 cgroup2 "$root/sys/fs/cgroup" || exit 1
mount -t tmpfs -o mode=755 tmpfs "$root/run" && mount -t tmpfs -o mode=755 tmpfs "$root/dev" || exit 1
for node in 'null 3' 'zero 5' 'full 7' 'random 8' 'urandom 9'; do
    mknod -m 666 "$root/dev/${node% *}" c 1 "${node#* }" || exit 1
done
mkdir -m 1777 "$root/dev/shm" && mkdir "$root/dev/pts" && mount -t devpts devpts "$root/dev/pts" || exit 1
ln -s pts/ptmx "$root/dev/ptmx" && ln -s /proc/self/fd "$root/dev/fd" || exit 1
mkdir "$root/share" && mount --bind "$room/share" "$root/share" || exit 1
ip link set lo up 2>/dev/null || ifconfig lo up || exit 1
cat >"$root/etc/systemd/system/try.service" <<UNIT
[Unit]
DefaultDependencies=no
[Service]
Type=oneshot
Environment=PATH=$PATH
ExecStart=/bin/sh -c '"$here/tests/operating.sh" system >/share/said 2>&1; echo \$\$? >/share/status'
ExecStopPost=/bin/systemctl exit --force
TimeoutStartSec=600
UNIT
cat >"$root/etc/systemd/system/try.target" <<UNIT
[Unit]
Requires=systemd-journald.service try.service
After=systemd-journald.service
UNIT
exec env -i PATH="$PATH" container=vnfm chroot "$root" /lib/systemd/systemd --system --unit=try.target
END
chmod +x "$room/boot"
for group in $groups; do mkdir "$group" || exit 1; done
(
    for group in $groups; do echo 0 >"$group/cgroup.procs" || exit 1; done
    exec unshare --pid --fork --mount --uts --ipc --net --cgroup --kill-child --propagation private "$room/boot" "$room" "$here"
) </dev/null >"$room/booted" 2>&1
if [ ! -e "$room/share/status" ]; then
    echo "systemd didn't run in its namespaces:"
    cat "$room/booted" "$room/share/said" 2>/dev/null
    exit 1
fi
cat "$room/share/said"
exit "$(cat "$room/share/status")"
