# Rewrites the LLVM module of the proved writer, as text, for another processor. The kit makes it for x86-64 and says so
# in three places: the layout of its data, its triple, and one group of attributes. Those three are changed. A value of
# several parts, as { i8, ptr }, is loaded part by part, at its places on x86-64: another processor may have other ones.
# Every other line has to be of a form that means the same on both processors: sizes and places are small numbers of
# bytes, no address becomes a number, memory is used as memory.awk says, and a call is of a function of the module, with
# its types, and none calls itself. A module that looks otherwise is refused: one line on standard error, status 1.
#
# The module is read twice, so it is named twice: awk .. -f memory.awk -f retarget.awk module.ll module.ll
# Variables: layout and triple, what the kit's clang says for x86-64; to_layout and to_triple, what it says for the
# other processor; exported, the line that declares the writer, without its group of attributes; more, a line to add.

function refuse(why) {
    print why >"/dev/stderr"
    is_refused = 1
    exit 1
}

function refuse_line() {
    refuse("line " FNR " of the module is of no known form: " $0)
}

function keep(line) {
    kept[++keeps] = line
}

# Whether a text is of a form, all of it. Forms are built from the names of their parts.
function is(text, form) {
    return text ~ ("^(" form ")$")
}

# The types of a function that a line defines or calls, the returned one first. Of what it is passed `passed` has the
# values, from 1 on, and their count at 0.
function types_of(line,    types, part, n, i) {
    sub(/ #[0-9]+ [{]$/, "", line)
    match(line, / @/)
    types = substr(line, 1, RSTART - 1)
    sub(/^ *(%[^ ]* = )?(define |call )(internal )?(noundef )?/, "", types)
    line = substr(line, RSTART + 2)
    sub(/^("[^"]*"|[^("]*)/, "", line)
    n = split(substr(line, 2, length(line) - 2), part, ", ")
    for (i = 1; i <= n; i++) {
        passed[i] = part[i]
        sub(/ .*/, "", part[i])
        sub(/.* /, "", passed[i])
        types = types " " part[i]
    }
    passed[0] = n
    return types
}

function name_in(line) {
    match(line, name)
    return substr(line, RSTART, RLENGTH)
}

# A call is of a function that may stand further down: it is looked at at the end. Memory that is passed is the same in
# the function, whose parameters are %a0, %a1 and so on.
function note_call(line,    one, i) {
    one = name_in(line)
    if (one == copy || one == fill) {
        needed[one] = FNR
        return
    }
    calls++
    caller[calls] = inside
    callee[calls] = one
    called_at[calls] = FNR
    called_types[calls] = types_of(line)
    for (i = 1; i <= passed[0]; i++)
        if (passed[i] in own) same_memory(own[passed[i]], at[passed[i]], one " %a" (i - 1), 0, "")
        else stranger[++strangers] = one " %a" (i - 1)
}

# Each call is of a function of the module, with its types. Where no function calls itself, one can be taken away that
# calls none of those that are left, until none is left.
function check_calls(    i, one, left, waits, is_done) {
    for (i = 1; i <= calls; i++) {
        one = "line " called_at[i] " of the module calls " callee[i]
        if (!(callee[i] in signature)) refuse(one ", which is not in it")
        if (called_types[i] != signature[callee[i]]) refuse(one " with other types than it has")
        if (callee[i] == exported_name) refuse(one ", which is for C alone")
    }
    for (one in signature) left[one] = 1
    do {
        is_done = 1
        split("", waits)
        for (i = 1; i <= calls; i++) if ((caller[i] in left) && (callee[i] in left)) waits[caller[i]] = 1
        for (one in left) {
            if (one in waits) continue
            delete left[one]
            is_done = 0
        }
    } while (!is_done)
    for (one in left) refuse("a function of the module may call itself: " one)
}

# In the place of `  %r = load { i8, ptr }, ptr %p, align 8`: each part is loaded from its place, of any alignment, and
# put into a value of the same parts.
function load_parts(line,    whole, pointer, result, part, n, i, size, place, made) {
    whole = line
    sub(/^[^{]*/, "", whole)
    pointer = whole
    sub(/[}].*/, "}", whole)
    sub(/^[^}]*[}], ptr /, "", pointer)
    sub(/,.*/, "", pointer)
    result = line
    sub(/^  /, "", result)
    sub(/ .*/, "", result)
    n = split(substr(whole, 3, length(whole) - 4), part, ", ")
    made = "poison"
    place = 0
    for (i = 1; i <= n; i++) {
        size = size_of[part[i]]
        place += (size - place % size) % size
        take("  " result ".place" i " = getelementptr i8, ptr " pointer ", i64 " place)
        take("  " result ".part" i " = load " part[i] ", ptr " result ".place" i ", align 1")
        line = "insertvalue " whole " " made ", " part[i] " " result ".part" i ", " (i - 1)
        made = result ".with" i
        keep("  " (i < n ? made : result) " = " line)
        place += size
    }
}

# An instruction that is looked at, and kept.
function take(line,    wrong) {
    wrong = wrong_with_memory(inside, line, copy, fill)
    if (wrong != "") refuse("line " FNR " of the module " wrong ": " $0)
    keep(line)
}

BEGIN {
    number = "[0-9]+"
    small = "[0-9][0-9]?[0-9]?[0-9]?" # a size or a place in bytes: far below what 32 bits can count
    integer = "i(1|8|16|32|64)"
    type = "(" integer "|ptr)"
    parts = "[{] " type "(, " type ")* [}]" # a value of several parts
    any = "(" type "|" parts ")"
    local = "%[A-Za-z][A-Za-z0-9_.]*"
    value = "(" local "|-?" number "|true|false)"
    name = "@(\"[^\"]+\"|[A-Za-z_][A-Za-z0-9_.]*)"
    label = "label " local
    aligned = ", align " number
    known = "(, !(noundef|range) !" number ")*" # what the compiler may assume of a value that is loaded
    argument = type " " value
    arguments = "\\((" argument "(, " argument ")*)?\\)"
    parameter = type " (noundef )?" local # of an enum, a part that some variant has not
    parameters = "\\((" parameter "(, " parameter ")*)?\\)"
    returned = "(void|(noundef )?" any ")"

    forms = "store " argument ", ptr " local aligned
    forms = forms "|br " label "|br i1 " value ", " label ", " label
    forms = forms "|switch " integer " " value ", " label " \\[|  " integer " -?" number ", " label "|\\]"
    forms = forms "|ret void|ret " any " " value "|unreachable"
    forms = forms "|call void " name arguments
    copy = "@llvm.memmove.p0.p0.i64"
    copying = "  call void " copy "\\(ptr " local ", ptr " local ", i64 " small ", i1 false\\)"
    fill = "@llvm.memset.p0.i64"
    filling = "  call void " fill "\\(ptr " local ", i8 0, i64 " small ", i1 false\\)" # an address of zeros is null

    results = "alloca (" type "|\\[" small " x i8\\])" aligned
    results = results "|load " type ", ptr " local aligned known
    results = results "|getelementptr( inbounds nuw)? i8, ptr " local ", i64 (" local "|" small ")"
    results = results "|(add|sub|mul|and|or|xor)( nuw)? " integer " " value ", " value
    results = results "|(udiv|urem) " integer " " value ", [1-9][0-9]*"
    results = results "|(shl|lshr)( nuw)? " integer " " value ", [0-7]" # below the bits of any type
    results = results "|icmp (eq|ne|ult|ule|ugt|uge) " integer " " value ", " value
    results = results "|icmp eq ptr " local ", null"
    results = results "|(zext|trunc)( nuw)? " integer " " value " to " integer
    results = results "|extractvalue " parts " " local ", " number
    results = results "|call " any " " name arguments

    instruction = "  (" forms "|" local " = (" results "))"
    loading = "  " local " = load " parts ", ptr " local aligned
    of_copy = " nocallback nofree nounwind willreturn memory\\(argmem: (readwrite|write)\\)"
    fact = "i8 0, i8 2|!\"rattle logic=[0-9a-f]+\"" # a range, and who proved it
    copied = "ptr writeonly captures\\(none\\), ptr readonly captures\\(none\\), i64, i1 immarg"
    filled = "ptr writeonly captures\\(none\\), i8, i64, i1 immarg"
    host = "\"probe-stack\"=\"inline-asm\" \"stack-probe-size\"=\"" number "\" \"target-cpu\"=\"x86-64-v2\""
    exported_name = name_in(exported)
}

# The first time: what is stored into the memory of an address.
NR == FNR {
    if ($0 ~ /^define /) inside = name_in($0)
    if ($0 ~ /^  store ptr /) {
        split($0, word, /[ ,]+/)
        note_store(inside, word[4], word[6])
    }
    next
}

# Comments, empty lines, ends of functions, and facts for the compiler that the lines above refer to.
/^;/ || /^$/ || /^[}]$/ || /^source_filename = "[a-z]*"$/ {
    keep($0)
    next
}
/^!/ {
    if (!is($0, "!llvm.ident = ![{]!" number "[}]|!" number " = ![{](" fact ")?[}]")) refuse_line()
    keep($0)
    next
}

# The three places.
/^target datalayout = / {
    if ($0 != "target datalayout = \"" layout "\"") refuse("the module has another layout than x86-64: " $0)
    layouts++
    keep("target datalayout = \"" to_layout "\"")
    next
}
/^target triple = / {
    if ($0 != "target triple = \"" triple "\"") refuse("the module has another triple than x86-64: " $0)
    triples++
    keep("target triple = \"" to_triple "\"")
    next
}
/^attributes / {
    line = $0
    if (is(line, "attributes #" number " = [{] nounwind " host " [}]")) {
        processors++
        sub(/ "probe-stack"[^}]*/, " ", line)
    } else if (!is(line, "attributes #" number " = [{]" of_copy " [}]")) refuse("the module has other attributes: " $0)
    keep(line)
    next
}

# Functions. One has a name for C, and is what the header declares.
/^define / {
    head = $0
    if (!is(head, "define (internal )?" returned " " name parameters " #" number " [{]")) refuse_line()
    inside = name_in(head)
    if (inside in signature) refuse("the module has two functions " inside)
    signature[inside] = types_of(head)
    forget_memory()
    sub(/ #[0-9]+ [{]$/, "", head)
    if (head !~ /^define internal /) {
        if (head != exported) refuse("the module exports something else than the header declares: " head)
        exports++
    } else {
        n = split(signature[inside], word, " ")
        for (i = 1; i <= passed[0]; i++) if (word[n - passed[0] + i] == "ptr") memory_passed(inside, passed[i])
    }
    for (i = 1; i <= passed[0]; i++) if (passed[i] != "%a" (i - 1)) refuse_line()
    keep($0)
    next
}
/^declare / {
    if (is($0, "declare void " copy "\\(" copied "\\) #" number)) declared[copy]++
    else if (is($0, "declare void " fill "\\(" filled "\\) #" number)) declared[fill]++
    else refuse("the module needs something else: " $0)
    keep($0)
    next
}
/^[a-z][a-z0-9.]*:/ {
    if (!is($0, "[a-z0-9.]+:( +; preds = .*)?")) refuse_line()
    keep($0)
    next
}
/^  / {
    if (is($0, loading)) {
        load_parts($0)
        next
    }
    if (!is($0, instruction)) refuse_line()
    if (index($0, copy "(") && !is($0, copying) || index($0, fill "(") && !is($0, filling)) refuse_line()
    if ($0 ~ / = icmp eq ptr / && inside != exported_name) refuse_line() # what C passes may be null
    if ($0 ~ /^  (%[^ ]+ = )?call /) note_call($0)
    take($0)
    next
}
{ refuse_line() }

END {
    if (is_refused) exit 1
    if (layouts != 1) refuse("the module names " layouts + 0 " layouts, not one")
    if (triples != 1) refuse("the module names " triples + 0 " triples, not one")
    if (processors != 1) refuse("the module names the processor in " processors + 0 " groups of attributes, not in one")
    if (exports != 1) refuse("the module does not export the writer once, but " exports + 0 " times")
    for (one in needed)
        if (declared[one] != 1)
            refuse("line " needed[one] " of the module calls " one ", which is not declared once")
    check_calls()
    wrong = settle_memory()
    if (wrong != "") refuse("the module: " wrong)
    for (i = 1; i <= keeps; i++) print kept[i]
    if (more != "") print more
}
