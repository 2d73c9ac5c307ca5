#!/usr/bin/env bash
# Builds the lock and its key, and the sensor and its reader, lets them speak over 127.0.0.1, and compares what they print with `expected`.
# Words are passed on to the C compiler. Where tshark is installed, it opens what the key sent, from the same secret by its own OSCORE;
# where it isn't, this says so.
set -euo pipefail
cd "$(dirname "$0")"
work=$(mktemp -d)
library=${OSCORE_LIBRARY:-../../../crates/osc_c/out/libosc_c.a}
server='' between=''
# What was said is shown also where it ends too early.
trap '[ ! -e "$work/said" ] || cat "$work/said" >&2; [ -z "$server$between" ] || kill $server $between 2> /dev/null || true; rm -rf "$work"' EXIT
# Another lock and its key, with a context of their own.
for name in lock key; do
    sed 's/"a secret for a try"/"another secret for a try"/' "$name.c" > "$work/other_$name.c"
done
# What is lost is sent again after three to four and a half seconds, so that on a slow machine nothing is that is only late.
for source in {lock,key,sensor,reader,between}.c "$work"/other_{lock,key}.c; do
    cc -std=c11 -Wall -Wextra -Werror -O1 -D ACK_TIMEOUT_MS=3000 -I .. "$@" "$source" "$library" -o "$work/$(basename "$source" .c)"
done
# A reader that gives up after four seconds in which it hears nothing new.
cc -std=c11 -Wall -Wextra -Werror -O1 -D ACK_TIMEOUT_MS=3000 -D MAX_AGE_MS=4000 -I .. "$@" reader.c "$library" -o "$work/hasty"
mkfifo "$work/says"
. ./scenes

# The numbers in a record: those of the place with the greater generation (oscore_store.h).
kept() {
    local place
    for place in 0 4096; do od -An -v -w24 -tu8 -j $((place + 8)) -N 24 "$work/$1"; done | sort -n \
        | awk -v name="$1" 'END { print name " keeps sender " $2 ", received " $3 }'
}

# A lock that obeyed nothing in its first run, to which a datagram comes that is another lock's.
of_another_lock() {
    # The record of another context is told by its name.
    refused other_lock 0 1 lock.record
    begin other_lock 1 other_lock.record first
    replay sent.64
    finish
    # So it doesn't know yet what is new, and asks for an Echo value.
    begin other_lock 2 other_lock.record
    ask other_key other_key.record shut first
    finish
    kept other_lock.record
}

of_sensor_and_reader() {
    # The sensor ends the observation.
    begin sensor 4 sensor.record first
    ask reader reader.record 9 first
    finish
    # The reader ends it. A fourth notification is on its way then.
    begin sensor 4 sensor.record
    ask reader reader.record 3
    finish
    # A notification is lost, comes behind a newer one, or twice.
    begin sensor 3 sensor.record
    behind lost reader reader.record 9
    finish
    begin sensor 4 sensor.record
    behind late reader reader.record 9
    finish
    begin sensor 4 sensor.record
    behind twice reader reader.record 9
    finish
    # The ACK of the registration is lost: what comes next is heard all the same.
    begin sensor 3 sensor.record
    behind first reader reader.record 9
    finish
    # The answer to a cancellation is lost, so that comes again.
    begin sensor 3 sensor.record
    behind answer reader reader.record 1
    finish
    # The registration comes twice: it is obeyed once, and its first notification is sent again.
    begin sensor 3 sensor.record
    behind again reader reader.record 9
    finish
    # A notification is answered by a reset: the sensor notifies no more, and has nobody to whom to say that it ends.
    begin sensor 2 sensor.record
    behind reset hasty reader.record 9
    finish
    # The end is lost. The reader gives up once what it heard is too old.
    begin sensor 2 sensor.record
    behind answer hasty reader.record 9
    finish
    kept sensor.record
    kept reader.record
}

says() {
    of_lock_and_key
    kept lock.record
    kept key.record
    of_another_lock
    of_sensor_and_reader
}

says > "$work/said"
cat "$work/said"
mv "$work/said" "$work/shown"
diff expected "$work/shown" || { echo "bindings/c/examples: they don't print what is expected"; exit 1; }

# Wireshark's names: the key is the sender. Each datagram that was kept is a packet of its own.
opened() {
    local datagram secret
    secret=$(sed -nE 's/.* SECRET\[\] = "(.*)";/\1/p' key.c | tr '\n' '\0' | od -An -v -tx1 | tr -d ' \n')
    for datagram in "$work"/sent.*; do
        od -Ax -v -tx1 "$datagram"
    done | text2pcap -q -u 40000,5683 - "$work/sent.pcap" > /dev/null 2>&1
    tshark -r "$work/sent.pcap" -V -o "uat:oscore_contexts:\"02\",\"01\",\"$secret\",\"\",\"\",\"AES-CCM-16-64-128 (CCM*)\"" 2> /dev/null \
        | sed -n '/^Object Security/,/^    End of options/p' | sed -nE 's/^    (Code: |    Uri-Path: )/\1/p' | sed 's/^ *//' | paste -d ' ' - - | sed 's/^/tshark: /'
}

{ command -v tshark && command -v text2pcap; } > /dev/null || { echo "lock and key, sensor and reader: as expected; no tshark here, so it did not open what was sent"; exit; }
opened > "$work/opened" || true
cat "$work/opened"
diff - "$work/opened" <<'LINES' || { echo "bindings/c/examples: tshark doesn't show what was sent"; exit 1; }
tshark: Code: PUT (3) Uri-Path: lock
tshark: Code: PUT (3) Uri-Path: lock
LINES
echo "lock and key, sensor and reader: as expected, and tshark opens what the key sent"
