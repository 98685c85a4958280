# instruments.awk
# Makes instrument lines of security definitions, one a line, whose FIX tags are divided by the byte 1. Outrights come first.
# calendars: the subtypes (762) of calendar spreads; channel: if given, the only channel (1180) that is listed.
# A space in a name becomes `_`. Standard error tells that, and each definition that is left out, with the reason.
BEGIN {
    FS = "\001"
    if (calendars == "") calendars = "SP EQ FX RT"
}
function tell(text) { print text > "/dev/stderr" }
function is_whole(text, most) { return text ~ /^[1-9][0-9]*$/ && length(text) <= 10 && text + 0 <= most }
function leave_out(why) { tell("left out " (id == "" ? "line " NR : id " " name) ": " why) }

function is_outright() { return legs == "" || legs == "0" }

# Reads the tags of a definition.
function read_tags(    i, at, tag, value, type) {
    id = name = code = subtype = on = legs = leg = bought = sold = type = ""
    implied = 2
    depth = 10
    ratio = 1
    for (i = 1; i <= NF; i++) {
        at = index($i, "=")
        tag = substr($i, 1, at - 1)
        value = substr($i, at + 1)
        if (tag == 48) id = value
        else if (tag == 55) name = value
        else if (tag == 461) code = value
        else if (tag == 762) subtype = value
        else if (tag == 1180) on = value
        else if (tag == 555) legs = value
        else if (tag == 602) leg = value
        else if (tag == 623 && value + 0 != 1) ratio = value
        else if (tag == 624 && value == 1) bought = leg
        else if (tag == 624 && value == 2) sold = leg
        else if (tag == 1022) type = value
        else if (tag == 264 && type == "GBX") depth = value
        else if (tag == 264 && type == "GBI") implied = value
    }
}

# Gives the reason why a definition can't be listed, or nothing.
function reason() {
    if (id == "" || name == "") return "it has no id (48) or no name (55)"
    if (channel != "" && on != channel) return "channel " on
    if (code !~ /^F/) return "no future (" code ")"
    if (!is_whole(id, 2147483647)) return "its id is no number from 1 to 2147483647"
    if (id in named) return "defined before"
    if (name !~ /^[!-~]+$/) return "a name with other than printable ASCII characters"
    if (length(name) > 20) return "a name of more than 20 characters"
    if (name in taken) return "its name is that of " taken[name]
    if (!is_whole(depth, 10)) return "direct depth " depth
    if (implied != 2) return "implied depth " implied
    if (is_outright()) return ""
    if (legs != 2) return legs " legs"
    if (index(" " calendars " ", " " subtype " ") == 0) return "subtype " subtype " is none of " calendars
    if (ratio != 1) return "a leg of ratio " ratio
    if (depth != 10) return "a spread of depth " depth
    if (bought == "" || sold == "") return "no leg that is bought, or none that is sold"
    return ""
}
{
    read_tags()
    if (gsub(/ /, "_", name)) tell(id ": its name is written " name)
    why = reason()
    if (why != "") {
        leave_out(why)
        next
    }
    named[id] = name
    taken[name] = id
    if (is_outright()) {
        print "I", id, name, "O" (depth == 10 ? "" : " " depth)
        outright[id] = 1
        listed++
    } else {
        spreads++
        spread[spreads] = id
        first[id] = bought
        second[id] = sold
    }
}
END {
    for (n = 1; n <= spreads; n++) {
        id = spread[n]
        name = named[id]
        if (!(first[id] in outright)) leave_out("its leg " first[id] " is not listed")
        else if (!(second[id] in outright)) leave_out("its leg " second[id] " is not listed")
        else if (first[id] == second[id]) leave_out("its legs are one")
        else {
            print "I", id, name, "C", first[id], second[id]
            listed++
        }
    }
    if (listed > 512) tell(listed " instruments are listed, and a run has at most 512")
    if (!listed) tell("no instrument is listed")
    exit !listed || listed > 512
}
