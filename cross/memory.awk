# What the module does with memory, for retarget.awk: nothing that depends on the size of an address, or on how memory
# is aligned. A function's own memory is what an alloca gave; what it is passed may be the memory of its caller. There
# each place is an address or a number, never both, and is inside and aligned; memory for one address, whose size
# differs, is used for nothing else. All other memory, the caller's in C too, is read and written in single bytes.
# An address that a cell holds is known where each store into the cell is of the same one. What is copied, and what a
# callee does with memory that it is passed, is set beside it at the end (settle_memory).

BEGIN {
    size_of["i1"] = size_of["i8"] = 1
    size_of["i16"] = 2
    size_of["i32"] = 4
    size_of["i64"] = size_of["ptr"] = 8 # so the module counts
}

# Before the instructions of a function. `own` has the memory that a value points into, and `at` the place there. Of
# memory, named FUNCTION VALUE, there is its `room`, its `edge` (what it is aligned to), whether it is a `cell` for one
# address, the `last` place that is used, what it `holds` at each byte, and how it `aligns` there.
function forget_memory() {
    split("", own)
    split("", at)
}

function is_cell(pointer) {
    return (pointer in own) && (own[pointer] in cell)
}

# The functions below return what is wrong, or nothing.

function memory_taken(function_, name, bytes, aligned_to, type,    memory) {
    memory = function_ " " name
    own[name] = memory
    at[name] = 0
    room[memory] = bytes
    edge[memory] = aligned_to
    if (type == "ptr") cell[memory] = 1
    return aligned_to > 8 ? "aligns memory to more than 8 bytes" : ""
}

# A parameter that is an address: in memory of some caller in the module. Its edge is looked at at the end.
function memory_passed(function_, name) {
    own[name] = function_ " " name
    at[name] = 0
}

# Before all else: which address each store puts into a place.
function note_store(function_, value, pointer,    memory) {
    memory = function_ " " pointer
    if ((memory in stored) && stored[memory] != value) stored[memory] = ""
    else stored[memory] = value
}

# An address that is loaded from a cell.
function address_loaded(function_, name, pointer,    value) {
    if (!is_cell(pointer)) return
    value = stored[function_ " " pointer]
    if (!(value in own)) return
    own[name] = own[value]
    at[name] = at[value]
}

function place_taken(name, pointer, offset) {
    if (!(pointer in own)) return ""
    if (offset !~ /^[0-9]+$/) {
        if (own[pointer] in room) return "computes a place in its own memory"
        return "" # single bytes then
    }
    if (is_cell(pointer)) return "uses the memory of an address for more"
    own[name] = own[pointer]
    at[name] = at[pointer] + offset
    return ""
}

# Notes what is held at a place; returns what is wrong.
function held(memory, place, what) {
    if ((memory, place) in holds) return holds[memory, place] == what ? "" : "uses " holds[memory, place] " as " what
    holds[memory, place] = what
    has_changed = 1
    if (!(memory in last) || place > last[memory]) last[memory] = place
    return memory in room && place >= room[memory] ? "goes beyond its memory" : ""
}

# Notes how a place is aligned; returns what is wrong.
function aligned_at(memory, place, aligned_to) {
    if (memory in room)
        return aligned_to > edge[memory] || place % aligned_to != 0 ? "uses memory that is not aligned" : ""
    if (aligned_to > 1 && aligned_to > aligns[memory, place]) {
        aligns[memory, place] = aligned_to
        has_changed = 1
        if (!(memory in last) || place > last[memory]) last[memory] = place
    }
    return ""
}

function memory_used(type, pointer, aligned_to,    memory, what, place, wrong) {
    if (!(pointer in own)) return type == "i8" && aligned_to == 1 ? "" : "uses more than a byte of the caller's memory"
    memory = own[pointer]
    if ((wrong = aligned_at(memory, at[pointer], aligned_to)) != "") return wrong
    if (is_cell(pointer) && type != "ptr") return "uses the memory of an address for more"
    what = type == "ptr" ? "an address" : "a number"
    if (size_of[type] > 1) make_wider(memory, at[pointer])
    for (place = at[pointer]; place < at[pointer] + size_of[type]; place++)
        if ((wrong = held(memory, place, what)) != "") return wrong
    return ""
}

function memory_reached(pointer, bytes) {
    if (!(pointer in own)) return ""
    if (is_cell(pointer)) return "uses the memory of an address for more"
    return own[pointer] in room && at[pointer] + bytes > room[own[pointer]] ? "goes beyond its memory" : ""
}

# Two memories hold the same at so many places, or at all that either uses; settled at the end.
function same_memory(a, at_a, b, at_b, bytes) {
    sames++
    first[sames] = a; at_first[sames] = at_a; second[sames] = b; at_second[sames] = at_b; count[sames] = bytes
}

function settle_memory(    i, place, end, wrong) {
    do {
        has_changed = 0
        for (i = 1; i <= sames; i++) {
            end = count[i]
            if (end == "") end = (second[i] in last ? last[second[i]] + 1 : 0) - at_second[i]
            wrong = ""
            for (place = 0; place < end; place++) {
                if ((first[i], at_first[i] + place) in holds)
                    wrong = held(second[i], at_second[i] + place, holds[first[i], at_first[i] + place])
                else if ((second[i], at_second[i] + place) in holds)
                    wrong = held(first[i], at_first[i] + place, holds[second[i], at_second[i] + place])
                # of copies both sides are looked at where they are used
                if (wrong == "" && count[i] == "" && (second[i], at_second[i] + place) in aligns)
                    wrong = aligned_at(first[i], at_first[i] + place, aligns[second[i], at_second[i] + place])
                if (count[i] == "" && ((second[i], at_second[i] + place) in wider))
                    make_wider(first[i], at_first[i] + place)
                if (wrong != "") return first[i] " and " second[i] ": it " wrong
            }
        }
    } while (has_changed)
    # memory that is not known is passed for single bytes alone
    for (i = 1; i <= strangers; i++)
        for (place = 0; (stranger[i] in last) && place <= last[stranger[i]]; place++)
            if (((stranger[i], place) in aligns) || holds_more(stranger[i], place))
                return "it passes memory that is not known as " stranger[i]
    return ""
}

function make_wider(memory, place) {
    if ((memory, place) in wider) return
    wider[memory, place] = 1
    has_changed = 1
    if (!(memory in last) || place > last[memory]) last[memory] = place
}

function holds_more(memory, place) {
    return ((memory, place) in wider) || ((memory, place) in holds) && holds[memory, place] == "an address"
}

# A line that is of a known form, in words.
function wrong_with_memory(inside, line, copy, fill,    word, n, i, wrong) {
    n = split(line, word, /[ ,()]+/) # the first is empty
    if (word[4] == "alloca" && word[5] ~ /^\[/)
        return memory_taken(inside, word[2], substr(word[5], 2) + 0, word[9] + 0, "")
    if (word[4] == "alloca") return memory_taken(inside, word[2], size_of[word[5]], word[7] + 0, word[5])
    if (word[4] == "getelementptr") {
        i = word[5] == "inbounds" ? 9 : 7
        return place_taken(word[2], word[i], word[i + 2])
    }
    if (word[4] == "load") {
        wrong = memory_used(word[5], word[7], word[9] + 0)
        if (word[5] == "ptr") address_loaded(inside, word[2], word[7])
        return wrong
    }
    if (word[2] == "store") {
        if (is_cell(word[4])) return "uses the memory of an address for more"
        return memory_used(word[3], word[6], word[8] + 0)
    }
    if (word[2] == "call" && word[4] == fill) return memory_reached(word[6], word[10] + 0)
    if (word[2] == "call" && word[4] == copy) {
        wrong = memory_reached(word[6], word[10] + 0)
        if (wrong == "") wrong = memory_reached(word[8], word[10] + 0)
        if (wrong != "") return wrong
        if (!(word[6] in own && word[8] in own)) return "copies to or from memory that is not its own"
        same_memory(own[word[6]], at[word[6]], own[word[8]], at[word[8]], word[10] + 0)
        return ""
    }
    for (i = 2; i <= n; i++)
        if (is_cell(word[i])) return "uses the memory of an address for more"
    return ""
}
