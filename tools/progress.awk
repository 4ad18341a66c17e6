# How far rt is, for tools/progress. It reads what is to do ('do crate rows'), what has ended ('end crate rows proved') and what was started
# ('start crate rows'); an edit's name is CRATE/EDIT. It prints a line for each crate whose end, or whose last edit's end, was not told yet, for
# each whose edits were begun, and for each such program; then the line of how far it is, or of all if it is over. `told` names a file of what was
# told and begun, `times` a file for the seconds of each crate, `time` and `seconds` are the time so far.

function is_good(how) { return how ~ /^(unchanged|proved|begun|refused|ran)$/ }

# Counts an end. Returns what is to be told of it.
function count(i,    part) {
    if (is_good(how[i])) done[kind[i]]++; else failed = failed (failed ? ", " : "") name[i]
    if (kind[i] == "trial") return "edits of " name[i] " begun"
    if (kind[i] != "edit" || !is_good(how[i])) return name[i] " " how[i]
    split(name[i], part, "/")
    return --left[part[1]] ? "" : "edits of " part[1] " refused"
}

# What goes on, of the kind that rt is at.
function going(    said, i) {
    for (i = 1; i <= starts; i++) if (at == begun_kind[i] && !((at, begun[i]) in seen)) said = said (said ? ", " : "") begun[i]
    return said
}

function far(kind) { return done[kind] + 0 " of " all[kind] + 0 " " kind "s" }

function all_of_it(    said) {
    said = far("crate") (before ? ", " before " of them unchanged" : "")
    return said (all["edit"] ? ", " far("edit") : "") (all["program"] ? ", " far("program") : "") ", " time
}

BEGIN {
    at = "crate"
    while ((getline line < told) > 0) if (split(line, part, " ") == 3) since[part[2]] = part[3]; else known[line]
    close(told)
}
$1 == "do" { all[$2]++; split($3, part, "/"); if ($2 == "edit") left[part[1]]++ }
$1 != "do" && all[$2] && $2 != "trial" { at = $2 }
$1 == "start" {
    begun[++starts] = $3
    begun_kind[starts] = $2
    if (!($3 in since)) { since[$3] = seconds; print "start " $3 " " seconds >> told }
}
$1 == "end" && all[$2] && !(($2, $3) in seen) { seen[$2, $3]; kind[++ends] = $2; name[ends] = $3; sub(/^[^ ]+ [^ ]+ [^ ]+ /, ""); how[ends] = $0 }
END {
    for (i = 1; i <= ends; i++) {
        if (how[i] == "unchanged") before++
        if (how[i] == "unchanged" || (kind[i] " " name[i]) in known) count(i); else fresh[++news] = i
    }
    now = going()
    for (i = 1; i <= news; i++) {
        if (how[fresh[i]] == "proved") print name[fresh[i]] " " seconds - since[name[fresh[i]]] >> times
        said = count(fresh[i])
        if (said) print far(kind[fresh[i]] == "trial" ? "crate" : kind[fresh[i]]) ", " time ": " said (now ? "; now " now : "")
        print kind[fresh[i]] " " name[fresh[i]] >> told
    }
    print over ? all_of_it() : far(at) ", " time (now ? ": now " now : "") (failed ? "; FAILED: " failed : "")
}
