# What tests/exported/compare and tests/order/compare share, which read it in the project's folder.

# callers FOLDER COMMAND..: runs COMMAND LANGUAGE for each language of which this machine can make a caller, which is then
# the file LANGUAGE of the folder; one that cannot be made although the tools are there is one failed
callers() {
    folder=$1
    shift
    for language in c rust; do
        status=0
        tests/exported/caller "$language" "$folder/$language" || status=$?
        case $status in
            0) "$@" "$language" ;;
            3) ;;
            *)
                echo "FAILED: a caller in $language could not be made"
                failed=$((failed + 1))
                ;;
        esac
    done
}
