# Read by check and measure: lines of contexts, and a PostgreSQL in a folder of its own, on a socket alone, which `pg` names as a store.
data='' pg='' bin=$(pg_config --bindir 2> /dev/null)

# A reason to skip, where one of these isn't here.
without() {
    local name
    for name in "$@"; do
        command -v "$name" > /dev/null || { echo "there is no $name here"; return; }
    done
}

# Lines of so many contexts: of a hundred so many were restarted, and each seventh has an ID context.
contexts() {
    awk -v count="$1" -v restarted="${2:-30}" 'BEGIN { for (i = 0; i < count; i++)
        printf "%08x%024x %016x 53 %08x %s %s 0\n", (i * 40503) % 65521 * 65521, i, i + 90000, i, i % 7 ? "-" : sprintf("%08x", i + 7), i * 79 % 100 < restarted ? "restarted" : "fresh" }'
}

# Why there can be no PostgreSQL, where that is so.
without_postgres() {
    local why
    why=$(without pg_config psql)
    pkg-config --exists 'libpq >= 14' 2> /dev/null || why=${why:-"there is no libpq-dev of PostgreSQL 14 or later here"}
    [ -x "$bin/initdb" ] || why=${why:-"there is no PostgreSQL server here"}
    [ "$(id -u)" != 0 ] || id postgres > /dev/null 2>&1 || why=${why:-"there is no user postgres here"}
    echo "$why"
}

# By root its server doesn't run.
as_postgres() {
    if [ "$(id -u)" = 0 ]; then runuser -u postgres -- "$@"; else "$@"; fi
}

start_postgres() {
    data=$(mktemp -d)
    [ "$(id -u)" != 0 ] || chown postgres "$data"
    as_postgres "$bin/initdb" -D "$data/db" -A trust -U postgres --no-sync > "$kept/initdb"
    printf "listen_addresses=''\nunix_socket_directories='%s'\n" "$data" >> "$data/db/postgresql.conf"
    as_postgres "$bin/pg_ctl" -D "$data/db" -l "$data/said" -w start > "$kept/pg_ctl" || return 1
    pg="pg:host=$data user=postgres"
}

stop_postgres() {
    [ -z "$pg" ] || as_postgres "$bin/pg_ctl" -D "$data/db" -m immediate -w stop > /dev/null
    [ -z "$data" ] || rm -rf "$data"
}

# Its parts that are left end by themselves; it can't start before, and is tried again.
crash_postgres() {
    local i
    kill -KILL "$(head -1 "$data/db/postmaster.pid")"
    for ((i = 0; i < 500; i++)); do
        ! as_postgres "$bin/pg_ctl" -D "$data/db" -l "$data/said" -w start > "$kept/pg_ctl" 2>&1 || return 0
    done
    cat "$kept/pg_ctl" && return 1
}

sql() {
    psql -qAtX -h "$data" -U postgres -c "$1" > "$kept/sql" 2>&1 || { cat "$kept/sql"; return 1; }
}
