#!/bin/bash
# Writes inputs of a given size into a folder, always the same ones, for measuring. It is no part of the gate.
#   bench/inputs.sh lists AGENTS OBJECTS FOLDER   lists.csv and quotas.csv: lists of up to five objects in a random order; each
#                                                 object takes its part of the agents, at most half of them of odd number
#   bench/inputs.sh equal N FOLDER                shares.csv and quotas.csv: N agents have equal chances of N objects, one each
#   bench/inputs.sh mixed N K FOLDER              the same, where the chances are the average of K random orders
#   bench/inputs.sh shares TABLE QUOTAS FOLDER    shares.csv and quotas.csv: the shares of an eating table, under its quotas and at
#                                                 most one unit for each agent; at most 1,000 sets in all may be stated, and
#                                                 the quotas have no `agent` record
set -eu

made_lists() {
    awk -v agents="$1" -v objects="$2" '
        function next_number() { state = state * 16807 % 2147483647; return state }
        BEGIN {
            state = 1
            length_of_list = objects < 5 ? objects : 5
            print "agent,choices"
            for (i = 1; i <= agents; i++) {
                for (a = 1; a <= objects; a++) order[a] = a
                line = "p" i
                for (j = 1; j <= length_of_list; j++) {
                    k = j + next_number() % (objects - j + 1)
                    kept = order[j]; order[j] = order[k]; order[k] = kept
                    line = line ",s" order[j]
                }
                print line
            }
        }'
}

made_quotas() {
    awk -v agents="$1" -v objects="$2" '
        BEGIN {
            places = int((agents + objects - 1) / objects)
            half = places < 2 ? 1 : int(places / 2)
            for (a = 1; a <= objects; a++) print "object,s" a ",," places
            printf "group,odd"
            for (i = 1; i <= agents; i += 2) printf ",p" i
            print ""
            for (a = 1; a <= objects; a++) print "set,odd s" a ",2,," half "\nin,odd s" a ",odd,s" a
        }'
}

equal_shares() {
    awk -v n="$1" '
        BEGIN {
            printf "agent"; for (a = 1; a <= n; a++) printf ",s" a; print ""
            for (i = 1; i <= n; i++) { printf "p" i; for (a = 1; a <= n; a++) printf ",1/" n; print "" }
        }'
}

mixed_shares() {
    awk -v n="$1" -v orders="$2" '
        function next_number() { state = state * 16807 % 2147483647; return state }
        BEGIN {
            state = 1
            for (k = 1; k <= orders; k++) {
                for (a = 1; a <= n; a++) order[a] = a
                for (i = 1; i <= n; i++) {
                    j = i + next_number() % (n - i + 1)
                    kept = order[i]; order[i] = order[j]; order[j] = kept
                    count[i, order[i]]++
                }
            }
            printf "agent"; for (a = 1; a <= n; a++) printf ",s" a; print ""
            for (i = 1; i <= n; i++) {
                printf "p" i
                for (a = 1; a <= n; a++) printf ",%s", (count[i, a] ? count[i, a] "/" orders : "")
                print ""
            }
        }'
}

equal_quotas() {
    awk -v n="$1" '
        BEGIN {
            for (a = 1; a <= n; a++) print "object,s" a ",1,1"
            for (i = 1; i <= n; i++) print "agent,p" i ",1,1"
        }'
}

# The fields of a record as they are written, in field[1] and on: a comma within quotes parts none.
fields='
    function split_record(line,    k, c, count, quoted) {
        count = 1; quoted = 0; field[1] = ""
        for (k = 1; k <= length(line); k++) {
            c = substr(line, k, 1)
            if (c == "\"") quoted = !quoted
            if (c == "," && !quoted) field[++count] = ""; else field[count] = field[count] c
        }
        return count
    }'

table_shares() {
    awk "$fields"'
        { count = split_record($0) }
        field[1] == "denominator" { denominator = field[2] }
        field[1] == "objects" { printf "agent"; for (a = 2; a < count; a++) printf ",%s", field[a]; print "" }
        field[1] == "row" {
            printf "%s", field[2]
            for (a = 3; a < count; a++) printf ",%s", field[a] == "0" ? "" : field[a] "/" denominator
            print ""
        }' "$1"
}

table_quotas() {
    cat "$2"
    awk "$fields"'{ split_record($0) } field[1] == "row" { print "agent," field[2] ",,1" }' "$1"
}

case "${1-}" in
    lists) mkdir -p "$4"; made_lists "$2" "$3" >"$4/lists.csv"; made_quotas "$2" "$3" >"$4/quotas.csv" ;;
    equal) mkdir -p "$3"; equal_shares "$2" >"$3/shares.csv"; equal_quotas "$2" >"$3/quotas.csv" ;;
    mixed) mkdir -p "$4"; mixed_shares "$2" "$3" >"$4/shares.csv"; equal_quotas "$2" >"$4/quotas.csv" ;;
    shares) mkdir -p "$4"; table_shares "$2" >"$4/shares.csv"; table_quotas "$2" "$3" >"$4/quotas.csv" ;;
    *) echo "usage: bench/inputs.sh lists AGENTS OBJECTS FOLDER | equal N FOLDER | mixed N K FOLDER | shares TABLE QUOTAS FOLDER" >&2; exit 2 ;;
esac
