#!/bin/sh
# xenstore's own tools against the daemon at XENSTORED_PATH: each command, what it prints, and its status where that isn't 0.
do_it() {
    echo "$ $*"
    timeout 10 "$@" 2>&1 || echo "status $?"
}

do_it xenstore-write /vm/name bin-3
do_it xenstore-write /vm/level 40 /vm/state idle
do_it xenstore-read /vm/name
do_it xenstore-read /vm/level /vm/state
do_it xenstore-read /vm/absent
do_it xenstore-write /vm/bad.name 1
do_it xenstore-ls /
do_it xenstore-ls -f -p /vm
do_it xenstore-list /vm
do_it xenstore-list -p /vm
do_it xenstore-exists /vm/name
do_it xenstore-exists /vm/absent
do_it xenstore-chmod /vm/name n3 r5
do_it xenstore-ls -p /vm
do_it xenstore-chmod -r /vm b0
do_it xenstore-ls -p /vm
do_it xenstore-rm /vm/level
do_it xenstore-rm /vm/level
do_it xenstore-rm /absent/below
do_it xenstore-ls /

seen=$(mktemp)

# Starts xenstore-watch on a path for so many events, and waits for the first one: start_watch COUNT PATH WORDS
start_watch() {
    echo "$ xenstore-watch -n $1 $2, $3"
    : > "$seen"
    timeout 20 xenstore-watch -n "$1" "$2" > "$seen" 2>&1 &
    watcher=$!
    tries=0
    while [ ! -s "$seen" ] && [ $tries -lt 100 ]; do
        sleep 0.05
        tries=$((tries + 1))
    done
}

end_watch() {
    wait $watcher || echo "status $?"
    cat "$seen"
}

start_watch 4 /vm 'while others write and remove'
xenstore-write /vm/state busy
xenstore-write /other 1
xenstore-rm /vm/state
xenstore-rm /vm
end_watch
do_it xenstore-ls /

start_watch 7 /vm 'while others write below nodes that are not there: one path, then two in a transaction'
xenstore-write /vm/1/state idle
xenstore-write /vm/2/state idle /vm/2/level 40
end_watch
do_it xenstore-ls /vm
rm -f "$seen"
