#!/bin/sh
# examples/nginx.conf in front of `serve`: a client with its certificate comes through on either side; one without, or with the other
# side's, doesn't, and nothing of it reaches the manager. nginx is Debian's, run by tests/front.sh over a throwaway authority. Needs nginx,
# openssl and curl, and root; where nginx or openssl isn't there it says so, with status 0. Some seconds where the program is built.
. "$(dirname "$0")/common.sh"

port() {
    python3 -c 'import socket; it = socket.socket(); it.bind(("127.0.0.1", 0)); print(it.getsockname()[1])'
}
door=$(port) em_door=$(port) first=$(port) second=$(port)
mkdir "$room/front" && chmod 755 "$room" || exit 1
cp "$start" "$room/journal" || exit 1
"$here/vnfm" serve --journal "$room/journal" --listen "127.0.0.1:$door" --em-listen "127.0.0.1:$em_door" >"$room/serve.out" 2>"$room/serve.err" &
manager=$!
"$here/tests/front.sh" "$room/front" "$door" "$em_door" "$first" "$second" 2>"$room/front.err" &
front=$!
trap 'kill $manager $front 2>/dev/null; wait; rm -rf "$room"' EXIT

tls=$room/front/tls
path=vnflcm/v1/vnf_instances
tries=0
until curl -s -o "$room/answer" --cacert "$tls/authority.pem" "https://localhost:$first/" 2>/dev/null; do
    tries=$((tries + 1))
    if ! kill -0 $front 2>/dev/null; then
        wait $front
        status=$?
        cat "$room/front.err"
        [ "$status" != 2 ] || exit 0
        exit 1
    fi
    [ "$tries" -lt 200 ] || { echo "nginx doesn't listen"; cat "$room/front/nginx.log"; exit 1; }
    sleep 0.1
done

# Asks with the certificate of this name, or with none, at this port: the status, and whether it was the manager that answered.
through() { # NAME PORT WORD..
    name=$1 at=$2
    shift 2
    [ "$name" = none ] || set -- --cert "$tls/$name.pem" --key "$tls/$name.key" "$@"
    status=$(curl -s -o "$room/answer" -w '%{http_code} %{content_type}' --cacert "$tls/authority.pem" "$@" "https://localhost:$at/$path")
    echo "$status"
}

for side in "orchestrator $first element_manager" "element_manager $second orchestrator"; do
    set -- $side
    expect "the $1 with its certificate" "$(through "$1" "$2")" "200 application/json"
    expect "  without one" "$(through none "$2")" "400 text/html"
    expect "  with one of the other side" "$(through "$3" "$2")" "400 text/html"
    expect "  with one of the other side, what would be made" "$(through "$3" "$2" -H 'Content-Type: application/json' -d '{"vnfdId":"vnfd-1"}')" "400 text/html"
done
expect "an instance is made through it" "$(through orchestrator "$first" -H 'Content-Type: application/json' -d '{"vnfdId":"vnfd-1"}')" "201 application/json"
expect "  and stands" "$(through element_manager "$second"; grep -o '"_links"' "$room/answer" | grep -c .)" "200 application/json
1"
# (the sides are the manager's: a subscription is its own side's alone)
path=vnflcm/v1/subscriptions
expect "a subscription of the orchestrator" "$(through orchestrator "$first" -H 'Content-Type: application/json' -d '{"callbackUri":"http://127.0.0.1:1/n"}')" "201 application/json"
expect "  isn't shown to the element manager" "$(through element_manager "$second"; cat "$room/answer")" "200 application/json
[]"
exit $differs
