# awk -f tell.awk ANSWERS day.txt: the account of the day, with the answers in words beside the calls.
#
# ANSWERS is what `replay` prints for day.trace. Each line of the account that begins with "-" belongs to one answer, in order, and
# each scene's title to a note. Status 1 if they don't fit together.

BEGIN {
    digits = "0123456789abcdef"
    why[1] = "packet too short"; why[2] = "packet too long"; why[3] = "bytes 2, 3 not zero"; why[4] = "no such host"
    why[5] = "vector not as it has to be"; why[6] = "host not connected"; why[7] = "room too short"; why[8] = "tag wrong"
    why[9] = "inner client ID differs"; why[10] = "inner zeros not zero"; why[11] = "payload length differs"
    why[12] = "number not fresh"; why[13] = "group isn't the host's"; why[14] = "no such interface"; why[15] = "no such entry"
    why[16] = "entry is another group's"; why[17] = "no such command"; why[18] = "not permitted"; why[19] = "secret wrong"
    why[20] = "request too short or too long"; why[21] = "version not 1.0"; why[22] = "name length differs"
    why[23] = "no such name"; why[25] = "proof not 32 bytes"; why[26] = "host not waiting"; why[27] = "challenge differs"
    why[28] = "lent bytes of wrong length"; why[29] = "no reply owed for that number"; why[30] = "payload too long"
    why[31] = "no all-ones word left"; why[32] = "narrowing by an all-ones word"; why[39] = "state not sound"
}

FNR == NR { said[NR] = $0; count = NR; next }

/^[0-9]+\. / {
    if (said[++at] != "# " $0) misfit("the title '" $0 "'")
    print
    next
}

/^   - / {
    if (++at > count || said[at] ~ /^#/) misfit("the line '" $0 "'")
    tell($0, said[at])
    next
}

{ print }

END {
    if (!failed && at != count) misfit("the end")
    exit failed
}

function misfit(what) {
    if (!failed) print "tell.awk: the answers don't fit the account at " what > "/dev/stderr"
    failed = 1
    exit 1
}

# A call's line and its answer beside it; the state stands below.
function tell(line, answer,    word, n) {
    n = split(answer, word, " ")
    if (word[1] == "dump") {
        print line
        state(word, n)
    } else {
        printf "%-72s %s\n", line, (word[2] == 0 ? "accepted" given(word) : "refused " word[2] ": " why[word[2]]) blocks(word[3])
    }
}

function blocks(count) {
    return count == 0 ? "" : " (" count " AES block" (count == 1 ? "" : "s") ")"
}

# What an accepted call gives.
function given(word) {
    if (word[1] == "load") return ": " word[5] " hosts, " word[6] " interfaces"
    if (word[1] == "request") return ": host " word[4]
    if (word[1] == "command") return ": command " word[10] ", number " word[5] text(word[16])
    if (word[1] == "open") return text(word[5])
    return ""
}

# Bytes that are letters, in quotes.
function text(hex,    out, k) {
    if (hex == "-") return ""
    out = ""
    for (k = 1; k < length(hex); k += 2)
        out = out sprintf("%c", 16 * (index(digits, substr(hex, k, 1)) - 1) + index(digits, substr(hex, k + 1, 1)) - 1)
    return ", \"" out "\""
}

# The state's records and words, each kind on a line.
function state(word, n,    hosts, k, out, part) {
    hosts = word[2]
    out = ""
    for (k = 1; k <= hosts; k++) {
        split(word[3 + k], part, ":")
        out = out (k == 1 ? "" : ", ") "host " k " " part[1] (part[1] == "open" ? " at " part[3] : "")
    }
    print "       " out
    out = ""
    for (k = 4 + hosts; k <= n; k++) out = out " " word[k]
    print "       words:" out
}
