#!/bin/sh
# Runs nginx with examples/nginx.conf in front of a manager, until it is ended: makes two throwaway authorities of clients and one of the
# manager by openssl, and puts its own in where that file says that a user does.
#
#     tests/front.sh FOLDER ORCHESTRATORS ELEMENT_MANAGERS FIRST SECOND
#
# FOLDER is there and empty. The manager listens at the ports ORCHESTRATORS and ELEMENT_MANAGERS of 127.0.0.1, nginx at FIRST and SECOND. In
# FOLDER/tls stand the manager's authority, authority.pem, and the clients' orchestrator.pem and element_manager.pem, each with its .key.
# Needs root, since Debian's nginx writes to folders of its own. Ends with 2 where nginx or openssl isn't there.
here=$(cd "$(dirname "$0")/.." && pwd) || exit 1
folder=$1
PATH=$PATH:/usr/sbin:/sbin
for needed in nginx openssl; do
    if ! command -v $needed >/dev/null; then
        echo "front.sh: $needed isn't there (Debian: apt-get install $needed)" >&2
        exit 2
    fi
done
mkdir "$folder/tls" && cd "$folder/tls" || exit 1

# An authority.
authority() { # NAME
    openssl req -x509 -newkey ec -pkeyopt ec_paramgen_curve:P-256 -nodes -days 2 -subj "/CN=$1" -keyout "$1.key" -out "$1.pem" 2>/dev/null
}

# A certificate of that authority, for this machine.
certificate() { # NAME AUTHORITY
    openssl req -newkey ec -pkeyopt ec_paramgen_curve:P-256 -nodes -subj "/CN=$1" -keyout "$1.key" -out "$1.request" 2>/dev/null &&
        printf 'subjectAltName=DNS:localhost,IP:127.0.0.1\n' >"$1.names" &&
        openssl x509 -req -in "$1.request" -CA "$2.pem" -CAkey "$2.key" -CAcreateserial -days 2 -extfile "$1.names" -out "$1.pem" 2>/dev/null
}

authority authority && authority orchestrators && authority element_managers && certificate manager authority &&
    certificate orchestrator orchestrators && certificate element_manager element_managers || exit 1
sed "s|/etc/vnfm/tls|$folder/tls|
    s|127.0.0.1:9000;|127.0.0.1:$2;|
    s|127.0.0.1:9001;|127.0.0.1:$3;|
    s|listen 9443 |listen $4 |
    s|listen 9444 |listen $5 |" "$here/examples/nginx.conf" >"$folder/nginx.conf" || exit 1
exec nginx -p "$folder" -c "$folder/nginx.conf" -g "daemon off; pid $folder/nginx.pid; error_log $folder/nginx.log;"
