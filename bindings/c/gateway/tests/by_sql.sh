# Read by check: contexts that are inserted and removed by SQL.

# Runs statements over a store. Their rows are in $kept/sql.
sql_on() {
    case $1 in
    pg:*) sql "$2" ;;
    *) python3 "$here/tests/lite.py" "$kept/store.db" "$2" > "$kept/sql" ;;
    esac
}

# A statement's answer is this.
answers() {
    sql_on "$1" "$2"
    [ "$(cat "$kept/sql")" = "$3" ] || { echo "$2: $(cat "$kept/sql"), not $3"; return 1; }
}

# Waits until a statement's answer is this.
until_sql() {
    local i
    for ((i = 0; i < 200; i++)); do
        sql_on "$1" "$2"
        [ "$(cat "$kept/sql")" != "$3" ] || return 0
        sleep 0.05
    done
    answers "$@"
}

# The statement that inserts the contexts of some lines.
inserting() {
    awk -v q="'" 'BEGIN { printf "INSERT INTO provision (secret, salt, own, their, idcontext, state, next, words) VALUES" }
        { printf "%s", (NR > 1 ? ", (" : " ("); for (i = 1; i <= 7; i++) printf "%s%s%s, ", q, $i, q
            $1 = $2 = $3 = $4 = $5 = $6 = $7 = ""; sub(/^ +/, ""); printf "%s%s%s)", q, $0, q }'
}

# Two commands take what waits.
twice_at_once() {
    local one
    "$kept/trial" provision "$1" > "$kept/added" &
    one=$!
    "$kept/trial" provision "$1" > "$kept/added"
    wait "$one"
}

# Contexts are inserted by SQL while a gateway serves, whose processes are killed, and while two commands take lines too. Each is added once, and
# each line is removed.
inserted() {
    local all=$lines lines=$kept/some at
    head -1500 "$all" > "$lines"
    empty "$1"
    GATEWAY_KILL=100 GATEWAY_KILL_MS=300 begin "$1" workers=4 mode=tx
    for at in 1 501 1001; do
        sql_on "$1" "$(sed -n "$at,$((at + 499))p" "$lines" | inserting)"
        [ "$at" != 501 ] || twice_at_once "$1"
        until_sql "$1" "SELECT count(*) FROM provision" 0
    done
    load requests=600 outstanding=96 double=5 late=5 lose=3 replay=5
    finish
    at_each_step
    awk '/^killed while a context was added:/ { met = $NF > 0 } END { exit !met }' "$kept/ended"
    answers "$1" "SELECT count(*) FROM contexts" 1500
    judge_tx "$1"
}

# Lines to insert. Behind a bar stands why one is refused; those without a bar are good.
lines_with_faults() {
    contexts 2
    contexts 2 | sed 's/ 0000000\([01]\) / 0000001\1 /; s/$/|there is a context with this name, or with this Sender Key/'
    contexts 2 | sed 's/^[09]/8/; s/$/|there is a context with this name, or with this Sender Key/'
    cat << LINES
00 - 53 53 - fresh 0|SameIds
0 - 53 54 - fresh 0|the secret
$(printf '%0140d' 0) - 53 54 - fresh 0|the secret
00 ß 53 54 - fresh 0|the salt
00 - 5353535353535353 54 - fresh 0|the own identifier
00 - 53 x - fresh 0|the other's identifier
00 - 53 54 $(printf '%066d' 0) fresh 0|the ID context
00 - 53 54 - new 0|the state, which is fresh or restarted
00 - 53 54 - fresh -1|the next number
00 - 53 54 - restarted 1099511627776|the next number
00 - 53 54 - fresh 1|the next number, which is 0 of a fresh context
00 - 53 54 - fresh 0 slow|a word behind the next number
00 - 53 54 - fresh 0 blocks blocks blocks blocks|the number of words
aabbccddeeff - 53 54 - restarted 5000 tables blocks
LINES
}

# Some of the lines that were inserted can't be added. Each of these is marked once, with the reason, and stays. One that is mended is added.
marked() {
    local bad
    lines_with_faults > "$kept/faults"
    bad=$(grep -c '|' "$kept/faults")
    empty "$1"
    begin "$1"
    sql_on "$1" "$(sed 's/|.*//' "$kept/faults" | inserting)"
    timeout 60 python3 "$here/tests/talk.py" until "$kept/metrics" not_added "$bad"
    sql_on "$1" "SELECT n, refused FROM provision ORDER BY n"
    awk -F'|' 'NF == 2 { print NR "|" $2 }' "$kept/faults" | diff "$kept/sql" -
    sql_on "$1" "UPDATE provision SET state = 'fresh', their = '55', refused = NULL WHERE state = 'new'"
    timeout 60 python3 "$here/tests/talk.py" until "$kept/metrics" added 4
    python3 "$here/tests/talk.py" metrics "$kept/metrics" > "$kept/counted"
    finish
    grep -qx "not_added $bad" "$kept/counted"
    answers "$1" "SELECT (SELECT count(*) FROM contexts), (SELECT count(*) FROM provision)" "4|$((bad - 1))"
}

# The command adds what waits, too. The file of SQLite then holds nothing of a line that was removed, and all of one that was refused.
taken_at_once() {
    local status=0
    contexts 40 > "$kept/forty"
    empty "$1"
    sql_on "$1" "$(head -1 "$kept/forty" | cat "$kept/forty" - | inserting)"
    "${@:2}" provision "$1" > "$kept/added" 2>> "$kept/said" || status=$?
    [ "$status" = 1 ]
    printf '40 contexts added\n1 lines refused\n' | diff "$kept/added" -
    "${@:2}" provision "$1" | grep -qx '0 contexts added'
    [[ "$1" != pg:* ]] || return 0
    head -1 "$kept/forty" | cut -d' ' -f1 | grep -qaFf - "$kept/store.db"
    ! tail -39 "$kept/forty" | cut -d' ' -f1 | grep -qaFf - "$kept/store.db"
}

# The statements of an example of the page, by its place there, as a store spells them.
example() {
    awk -v wanted="$2" '/^```sql$/ { on = ++met == wanted; next } /^```$/ { on = 0 } on' "$here/README.md" \
        | if [[ "$1" == pg:* ]]; then sed "s/X'/'\\\\x/"; else cat; fi
}

# The page's statements do what the page says.
by_the_page() {
    empty "$1"
    sql_on "$1" "$(example "$1" 1)"
    "$kept/trial" provision "$1" | grep -qx '2 contexts added'
    sql_on "$1" "$(example "$1" 1 | sed "s/'fresh'/'frisch'/")"
    ! "$kept/trial" provision "$1" > /dev/null 2>> "$kept/said" || return 1
    sql_on "$1" "$(example "$1" 2)"
    grep -q '|00000001|the state, which is fresh or restarted$' "$kept/sql"
    answers "$1" "SELECT count(*) FROM provision" 1
    sql_on "$1" "$(example "$1" 3)"
    answers "$1" "SELECT count(*) FROM contexts" 0
}

# A backup brings back lines that were taken since, and their requests are sent again, to a gateway with these words.
lines_restored() {
    local all=$lines lines=$kept/some
    head -40 "$all" > "$lines"
    empty "$1"
    sql_on "$1" "$(inserting < "$lines")"
    save "$1"
    begin "$1"
    until_sql "$1" "SELECT count(*) FROM provision" 0
    load requests=200 "keep=$kept/sent"
    finish
    restore "$1"
    begin "$1" "${@:2}"
    until_sql "$1" "SELECT count(*) FROM provision" 0
    load requests=200 next=1000 "again=$kept/sent"
    finish
    rm -f "$kept/sent"
    judge
}

lines_under_a_new_era() {
    lines_restored "$1" "era=$("$kept/gateway" era)"
}

# A role that serves needs no right on the lines, if it doesn't look at them, and one that inserts needs no other right.
few_rights() {
    fresh "$pg"
    sql "CREATE ROLE serves LOGIN; CREATE ROLE inserts LOGIN; GRANT SELECT, UPDATE ON contexts TO serves; GRANT INSERT ON provision TO inserts"
    ! timeout 20 "$kept/gateway" serve "pg:host=$data user=serves dbname=postgres" 0 > "$kept/ended" 2>&1 || return 1
    grep -q 'permission denied for table provision' "$kept/ended"
    begin "pg:host=$data user=serves dbname=postgres" provision=0
    load requests=50
    finish
    psql -qAtX -h "$data" -U inserts -d postgres -c "$(example "$pg" 1)"
    ! psql -qAtX -h "$data" -U inserts -d postgres -c "SELECT secret FROM provision" 2> "$kept/ended" || return 1
    sql "GRANT INSERT ON contexts TO serves; GRANT SELECT, UPDATE, DELETE ON provision TO serves"
    begin "pg:host=$data user=serves dbname=postgres"
    timeout 60 python3 "$here/tests/talk.py" until "$kept/metrics" added 1
    finish
    sql "DROP OWNED BY serves, inserts; DROP ROLE serves, inserts"
}

# The keys of lines, as a store's SQL spells them.
keys_of() {
    local open="X'"
    [[ "$1" != pg:* ]] || open="'\x"
    OPEN=$open awk -v q="'" '{ id = $5 == "-" ? "" : sprintf("%02x%s", length($5) / 2, $5)
        printf "%s%s%02x%s%s%s", (NR > 1 ? ", " : ""), ENVIRON["OPEN"], length($4) / 2, $4, id, q }'
}

# Rows are deleted while requests are on their way: from then on their contexts are answered by no worker, and no row comes back.
revoked() {
    local loading all=$lines
    fresh "$1"
    local lines=$kept/some
    head -40 "$all" > "$lines"
    GATEWAY_PAUSE_MS=2 begin "$1" workers=4 mode=strict
    load seconds=2 &
    loading=$!
    timeout 60 python3 "$here/tests/talk.py" until "$kept/metrics" answered 300
    sql_on "$1" "DELETE FROM contexts WHERE k IN ($(head -20 "$lines" | keys_of "$1"))"
    wait "$loading"
    head -20 "$all" > "$lines"
    load requests=20 next=1000
    awk '$2 != 0 || $3 == 0 { exit 1 } END { exit NR == 0 }' "$kept/results"
    head -40 "$all" | tail -20 > "$lines"
    load requests=200 next=1000
    awk '$3 != 0 { exit 1 }' "$kept/results"
    finish
    answers "$1" "SELECT count(*) FROM contexts" 9980
}
