#!/bin/sh
# A journal that is all but full: a turn records what fits to the last byte of the file, and ends with 9 at the first act that
# doesn't; a request is told 507, and a descriptor ends with 9 too. A notice that waits is posted where its record fits to the
# last byte, and else nothing is posted. Needs python3, and 300 MB in the folder of temporary files.
. "$(dirname "$0")/common.sh"

limit=268435456
journal=$room/journal

# Two instances that were asked to be instantiated. A turn is made behind each request, so the first was tried twice.
cp "$start" "$journal"
for input in create create; do "$here/vnfm" once --journal "$journal" <"$here/examples/$input.http" >/dev/null 2>&1; done
for number in 1 2; do
    sed "s/000000000001/00000000000$number/" "$here/examples/instantiate.http" |
        "$here/vnfm" once --journal "$journal" >"$room/out" 2>/dev/null
    expect "instance $number" "$(head -n 1 "$room/out" | tr -d '\r')" "HTTP/1.1 202 Accepted"
done

# Fills the journal up to a byte, which is that of its closed gate: instances with descriptions are created and deleted.
cat >"$room/fill.py" <<'END_OF_FILL'
import struct, sys

journal, end, first = sys.argv[1], int(sys.argv[2]), int(sys.argv[3])
MOMENT = (1_700_000_000_000).to_bytes(8)
LEAST, MOST = 63, 2_111

def record(content):
    """A batch of one record, behind its open gate."""
    return b"\1" + struct.pack(">II", len(content) + 4, len(content)) + content

def pair(number, size):
    """The records that create an instance and delete it, of so many bytes."""
    name = struct.pack(">Q", number)
    line = struct.pack(">H", size - LEAST) + b"d" * (size - LEAST)
    return record(b"\2" + MOMENT + name + b"\6vnfd-1\0\1" + line) + record(b"\3" + MOMENT + name)

with open(journal, "r+b") as file:
    file.seek(-1, 2)
    count, rest = divmod(end - file.tell(), MOST)
    # The last two share what is left, so that neither is too small.
    last = MOST if rest >= LEAST else MOST - LEAST
    sizes = [MOST] * (count - 1) + [last, MOST + rest - last]
    for number, size in enumerate(sizes, first):
        file.write(pair(number, size))
    assert file.tell() == end
    file.write(b"\0")
END_OF_FILL

# What a run says and leaves: its status, the first line of its output, the line of its end, and the length of the journal.
run() { # INPUT COMMAND [OPTION VALUE]
    input=$1
    shift
    command=$1
    shift
    "$here/vnfm" "$command" --journal "$journal" "$@" <"$input" >"$room/out" 2>"$room/err"
    echo "status $?, $(cat "$room/err" "$room/out" | tr -d '\r' | grep -a -E '^(HTTP|done|journal full|bad record)' |
        sed 's/^bad record [0-9]*$/bad record/' | sort | tr '\n' ',')" \
        "$(bytes_of "$journal") bytes"
}

# Another descriptor, whose record has 256 bytes.
sed 's/vnfd-1/vnfd-2/' "$here/examples/vnfd.json" >"$room/other.json"

# A try has 18 bytes, and its batch 10 more, the closed gate behind it counted: the first of two fits, and nothing behind it.
python3 "$room/fill.py" "$journal" "$((limit - 28))" 3 || exit 1
expect "a turn of two acts" "$(run /dev/null once)" "status 9, journal full: $((limit - 1)) + 18 bytes, $limit bytes"
expect "a turn behind it" "$(run /dev/null once)" "status 9, journal full: $((limit - 1)) + 18 bytes, $limit bytes"
expect "a request, and a turn" "$(run "$request" once)" \
    "status 9, HTTP/1.1 507 Insufficient Storage,journal full: $((limit - 1)) + 18 bytes, $limit bytes"
expect "a request, its detail" "$(tail -n 1 "$room/out")" '{"detail":"journal full","status":507}'
expect "a cancel, and a turn" "$(run "$here/examples/cancel.http" once)" \
    "status 9, HTTP/1.1 507 Insufficient Storage,journal full: $((limit - 1)) + 18 bytes, $limit bytes"
expect "a cancel, its detail" "$(tail -n 1 "$room/out")" '{"detail":"journal full","status":507}'
expect "no round" "$(run /dev/null once --rounds 0)" "status 0, done after 0 rounds, $limit bytes"
expect "a descriptor" "$(run "$room/other.json" onboard)" "status 9, journal full: $((limit - 1)) + 256 bytes, $limit bytes"

# A batch that ends at the last place at which the closed gate may stand, and one that ends a byte behind it.
for end in "$((limit - 1))" "$limit"; do
    cp "$start" "$journal"
    python3 "$room/fill.py" "$journal" "$end" 1 || exit 1
    [ "$end" = "$limit" ] && wanted="status 8, bad record," || wanted="status 0, done after 1 rounds,"
    expect "a batch that ends at $end" "$(run /dev/null once)" "$wanted $((end + 1)) bytes"
done

# A receiver that takes each notice, of which the posts are counted.
cat >"$room/receiver.py" <<'END_OF_RECEIVER'
import http.server, os, sys

class Receiver(http.server.BaseHTTPRequestHandler):
    def do_POST(self):
        self.rfile.read(int(self.headers["Content-Length"]))
        with open(sys.argv[2], "a") as posts:
            posts.write("%s\n" % self.path)
        self.send_response_only(204)
        self.end_headers()

    def log_message(self, *_):
        pass

server = http.server.HTTPServer(("127.0.0.1", 0), Receiver)
with open(sys.argv[1] + ".new", "w") as port:
    port.write(str(server.server_port))
os.rename(sys.argv[1] + ".new", sys.argv[1])
server.serve_forever()
END_OF_RECEIVER
: >"$room/posts"
python3 "$room/receiver.py" "$room/port" "$room/posts" &
receiver=$!
trap 'kill "$receiver"; rm -rf "$room"' EXIT
until [ -e "$room/port" ]; do sleep 0.1; done

# The notices of a subscription wait behind it: of instances that are created and deleted, up to a byte.
body='{"callbackUri":"http://127.0.0.1:'$(cat "$room/port")'/n"}'
printf 'POST /vnflcm/v1/subscriptions HTTP/1.1\r\nContent-Length: %s\r\n\r\n%s' "${#body}" "$body" >"$room/subscribe"
posted() {
    bytes_of "$room/posts"
}
waiting() { # END
    cp "$start" "$journal"
    "$here/vnfm" once --journal "$journal" <"$room/subscribe" >"$room/out" 2>/dev/null
    expect "a subscription" "$(head -n 1 "$room/out" | tr -d '\r')" "HTTP/1.1 201 Created"
    python3 "$room/fill.py" "$journal" "$1" 1 || exit 1
}

# That a notice was posted has 26 bytes, and its batch 10 more, the closed gate behind it counted.
waiting "$((limit - 35))"
expect "a notice without room" "$(run /dev/null once)" "status 9, journal full: $((limit - 35)) + 26 bytes, $((limit - 34)) bytes"
expect "a notice without room, posts" "$(posted) bytes" "0 bytes"
waiting "$((limit - 36))"
expect "a notice with room to the last byte" "$(run /dev/null once)" "status 0, done after 1 rounds, $limit bytes"
expect "a notice with room to the last byte, posts" "$(posted) bytes" "3 bytes"
expect "the notice behind it" "$(run /dev/null once)" "status 9, journal full: $((limit - 1)) + 26 bytes, $limit bytes"
expect "a subscription in a full journal" "$(run "$room/subscribe" once)" \
    "status 9, HTTP/1.1 507 Insufficient Storage,journal full: $((limit - 1)) + 26 bytes, $limit bytes"
expect "a subscription in a full journal, its detail" "$(tail -n 1 "$room/out")" '{"detail":"journal full","status":507}'
expect "the notice behind it, posts" "$(posted) bytes" "3 bytes"

exit "$differs"
