# Plays the script in the file "$1" and tells how long that took. To be read by the scripts beside it, which run in crates/mdc.
timed() {
    # GNU time, if it is there, tells the memory too.
    if [ -x /usr/bin/time ]; then
        /usr/bin/time -f '%e s, %M KB' out/mdc play < "$1" | tail -n 1
    else
        time out/mdc play < "$1" | tail -n 1
    fi
}
