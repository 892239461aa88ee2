# Tells in plain words which claims hold: of the checker's log, and the list of claims that scripts/claim.awk wrote. See scripts/claim.

# the log: a line for each declaration that is not proved
FNR == NR {
    if (!/^[^ ].*: error: `/) next
    who = $0
    sub(/^.*: error: `/, "", who); sub(/`.*/, "", who)
    refused[who] = 1
    refusals++
    if (/stopped at the step limit/) too_long[who] = 1
    # what a claim rests on, which must hold whatever the answer says
    if (who !~ /^(q[0-9]+|p[0-9]+|edges_told|whole|by_call|whole_found|.*_holds|all_hold)$/) lost = lost " " who
    next
}

{
    split($0, part, "\t")
    count++
    if (part[1] in too_long) not_told[++unclear] = part[2]
    else if (part[1] == "-" || part[1] in refused) {
        gives = part[4] == "" || part[4] in refused ? "something else" : part[5]
        wrong[++differing] = part[2] ": the answer says " part[3] "; the definitions give " gives
        if (part[3] == "byte for byte") wrong[differing] = part[2] ": not byte for byte what the definitions give"
    }
    else right[++holding] = part[2] ": " part[3]
}

function claims(number) { return number " claim" (number == 1 ? "" : "s") }
function tell(lines, number,    i) { for (i = 1; i <= number; i++) print "  " lines[i] }

END {
    if ("rows" in too_long || "costs_of_rows" in too_long) {
        print name ": the checker cannot compute the shortcut graph of this net in the steps that it has: too many of its junctions are joined"
        exit 3
    }
    if (lost != "" || (checked != 0) != (refusals != 0)) {
        print "the checker did not say of each claim whether it holds: target/claim/log has what it said" (lost == "" ? "" : " of" lost)
        exit 3
    }
    if (differing) {
        print name ": " differing " of " claims(count) (differing == 1 ? " does" : " do") " not hold of the definitions"
        tell(wrong, differing)
    }
    if (unclear) {
        print name ": the checker cannot compute " unclear " of " claims(count) " in the steps that it has"
        tell(not_told, unclear)
    }
    if (holding) print differing || unclear ? "what else it says holds:" : name ": " claims(holding) (holding == 1 ? " holds" : " hold") " of the definitions"
    tell(right, holding)
    exit differing ? 1 : unclear ? 3 : 0
}
