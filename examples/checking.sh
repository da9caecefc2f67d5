# Functions for the checks of the examples, which read this file by `.`. At the end, `failed` is their status.
failed=0

# report NAME: prints whether the last comparison succeeded.
report() {
    if [ "$?" = 0 ]; then
        echo "ok   $1"
    else
        echo "FAIL $1"
        failed=1
    fi
}
