#!/bin/sh
# Clients of the field drive `serve` (tests/clients.py): the command `openstack` with the plug-in of python-tackerclient,
# each of its commands on `vnflcm`; curl; and Python's requests on a kept connection. Each outcome is compared with that
# of docs/PROFILE.md, "Clients". Where that client or curl isn't installed nothing is tried, and the status is 0.
missing() { # WHAT
    echo "clients.sh: not tried, since $1 isn't installed"
    exit 0
}
command -v curl >/dev/null || missing curl
client=$(command -v openstack) || missing "the command openstack (python3-openstackclient)"
# The interpreter of that command, which its first line names.
python=$(sed -n '1s/^#! *//p' "$client")
"$python" -c 'import openstackclient.shell, requests, tackerclient.osc.plugin' 2>/dev/null ||
    missing "python3-tackerclient, beside openstack in $python"
. "$(dirname "$0")/common.sh"

"$python" -B "$here/tests/clients.py" "$start" || differs=1
exit "$differs"
