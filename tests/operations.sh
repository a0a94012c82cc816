# Sourced by the tests that make long scripts.

# operations TIMES BEGIN: so many times the begin, `write M V` or `read M R`, and its four delivers.
operations() {
    local word member rest
    read -r word member rest <<<"$2"
    yes "$2"$'\n'"deliver $member"$'\n'"deliver $member"$'\n'"deliver $member"$'\n'"deliver $member" | head -n $((5 * $1))
}
