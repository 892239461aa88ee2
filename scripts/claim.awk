# What scripts/claim states of a net, and how it is proved: writes specs.txt and proofs.txt, and `list`, one claim a line.
# It reads the files `text`, `program` (what the program answers) and `answer` (what is claimed), and `bytes` and `answer-bytes`, the bytes of the
# first and the last as numbers; all in the folder that it is run in. See scripts/claim.
# The rows and the costs of the shortcut graph, and the answer, are worked out by scripts/claim-answer.awk: so each question is asked of plain lists, and it
# can be told what the definitions give. The checker has to find the same.

function closed_or(cost) { return cost == CLOSED ? "closed" : cost }
function without_zeros(number) { sub(/^0+/, "", number); return number == "" ? "0" : number }

# the first `count` entries of an array, as antt writes a list
function list_of(array, count,    i, said) {
    for (i = 0; i < count; i++) said = said closed_or(array[i]) " ∷ "
    return "(" said "[])"
}

# the bytes of a line that ends in LF
function bytes_of(line,    i, said) {
    for (i = 1; i <= length(line); i++) said = said (index(ASCII, substr(line, i, 1)) + 31) " ∷ "
    return "(" said "10 ∷ [])"
}

# so many of a thing
function counted(number, thing) { return number " " thing (number == 1 ? "" : "s") }

# an answer to a question in plain words
function in_words(line,    word, count, i, arcs) {
    count = split(line, word, " ")
    if (word[3] == "none") return "none"
    if (word[3] == "refused") return "refused " word[4]
    for (i = 5; i <= count; i++) arcs = arcs " " word[i]
    if (word[4] != count - 4) return word[3] " over " word[4] " arcs," (arcs == "" ? " none" : arcs)
    return word[3] " over " (count == 4 ? "no arcs" : (count == 5 ? "arc" : "arcs") arcs)
}

function with_ends(line,    word) { split(line, word, " "); return "from " word[1] " to " word[2] ", " in_words(line) }

# a line of the list: the claim's name in the proofs (- for one that needs no proof to fail), what it is about, what the answer says;
# and, where another answer was worked out, the name of that claim and its words, so that it can be told what the definitions give
function claim(name, about, says, other, gives) { print name "\t" about "\t" says "\t" other "\t" gives >list }
function state(name, type, unfolded, proof) {
    print "\npub " name " : " type (unfolded == "" ? "" : "\nunfolding " unfolded) "\n" name " = " proof >proofs
}
function define(name, type, value) { print "\nabbrev pub " name " : " type "\n" name " = " value >specs }

# the net, and that the text says it
function the_net() {
    define("yours", "Net", "net " list_of(tails, m) " " list_of(heads, m) " " list_of(costs, m) " " list_of(order, n))
    define("your_read", "Read", "record { started = true; junctions = " n "; arcs = " m "; tails = yours.tails; heads = yours.heads; costs = yours.costs; order = yours.order; froms = " list_of(from, asked) "; tos = " list_of(to, asked) " }")
    claim("text_says", "the text", counted(n, "junction") ", " counted(m, "arc") ", " counted(asked, "question"))
    state("text_says", "read_all your_text ≡ text your_read", "read_all your_text", "refl")
}

# an answer without a graph, or to a net that has none: of the text's definition, and of build or customise by the refusal's number
function the_whole(    number) {
    if (told == ours) claim("whole", "the whole answer", told)
    else claim("whole", "the whole answer", told, "whole_found", ours)
    state("whole", "answer your_text ≡ " bytes_of(told), "answer your_text", "refl")
    if (told != ours) return the_other_whole()
    number = told
    sub(/^refused 0*/, "", number)
    if (!broken) by_call(number)
}
function the_other_whole() {
    if (ours ~ /^refused/) state("whole_found", "answer your_text ≡ " bytes_of(ours), "answer your_text", "refl")
    else state("whole_found", "((built_by yours 4096).reply ≡ edges " E ") × ((customised_by yours 4096).reply ≡ done)", "built_by customised_by build_leaves customise_leaves", "(refl, refl)")
}
function by_call(number,    build, customise) {
    build = "number_told (built_by yours 4096).reply ≡ "
    customise = "number_told (customised_by yours 4096).reply ≡ "
    claim("by_call", number <= 6 ? "build" : "customise", "refused " number)
    if (number <= 6) state("by_call", build number, "built_by build_leaves", "refl")
    else state("by_call", "(" build "0) × (" customise number ")", "built_by customised_by build_leaves customise_leaves", "(refl, refl)")
}

# the shortcut graph, customised: what is asked of these lists is then asked of the calls one after the other
function the_graph() {
    define("your_rows", "Graph", "graph " list_of(first, n + 1) " " list_of(row, E))
    define("your_costs", "EdgeCosts", "edge_costs " list_of(up, E) " " list_of(down, E))
    define("your_rank", "List ℕ", list_of(rank, n))
    define("room", "ℕ", E)
    state("rows", "built_by yours room ≡ build_left (rank_list yours.order) your_rows (edges " E ")", "built_by build_leaves rank_list", "refl")
    state("rank_is", "rank_list yours.order ≡ your_rank", "rank_list", "refl")
    state("costs_of_rows", "customise_leaves yours your_rank your_rows (edge_costs (stale room) (stale room)) ≡ customise_left your_costs done", "customise_leaves", "refl")
    state("built", "built_by yours room ≡ build_left your_rank your_rows (edges " E ")", "", "rw (rows, rank_is)")
    state("after_build", "(N : Net) (places : ℕ) → customised_by N places ≡ customise_leaves N (built_by N places).rank (built_by N places).rows (edge_costs (stale places) (stale places))", "customised_by", "λ N places. refl")
    state("customised", "customised_by yours room ≡ customise_left your_costs done", "", "rw (after_build, built) costs_of_rows")
    all = "has_rows yours room " E " your_rows.first your_rows.heads\n    ∷ has_costs yours room your_costs.up your_costs.down"
    proof = "(rows, (customised, "
    ends = "))"
}

# E as the answer has it
function the_edges(number) {
    claim("edges_told", "edges", number, "rows", E)
    state("edges_told", "(built_by yours room).reply ≡ edges " number, "", "rw (built)")
}

# a question's answer: by distance and by route of those lists, and so by the calls
function the_answer(name, line,    word, count, i, arcs, says, left, places) {
    count = split(line, word, " ")
    if (word[3] == "none") { says = left = "no_walk"; arcs = "closed ∷ closed ∷ []"; places = 2 }
    else if (word[3] == "refused") { says = left = "(refused " without_zeros(word[4]) " 0)"; arcs = "stale 2"; places = 2 }
    else {
        for (i = 5; i <= count; i++) arcs = arcs (word[i] - 1) " ∷ "
        arcs = arcs "closed ∷ []"; places = count - 3
        says = "(far " without_zeros(word[3]) ")"; left = "(drive " without_zeros(word[3]) " " without_zeros(word[4]) ")"
    }
    state(name, "(distance_leaves yours.order your_rank your_rows your_costs " word[1] - 1 " " word[2] - 1 " ≡ distance_left " says ")" \
        " × (route_leaves yours your_rank your_rows your_costs " word[1] - 1 " " word[2] - 1 " (stale " places ") ≡ route_left (" arcs ") " left ")", "distance_leaves route_leaves", "(refl, refl)")
}

# that answer as a claim like those of specs/Examples.antt
function as_claim(name, line,    word, count, i, arcs, ends_of) {
    count = split(line, word, " ")
    ends_of = " " word[1] - 1 " " word[2] - 1
    if (word[3] == "none") return held(name, "nowhere yours room" ends_of, name)
    if (word[3] == "refused") return held(name, "drives_on yours yours room" ends_of " 2 (route_left (stale 2) (refused " without_zeros(word[4]) " 0))", name ".1")
    for (i = 5; i <= count; i++) arcs = arcs (word[i] - 1) " ∷ "
    return held(name, "goes yours room" ends_of " " without_zeros(word[3]) " (" arcs "[])", name)
}
function held(name, claim_text, proved) {
    all = all "\n    ∷ " claim_text
    proof = proof "(" name "_holds, "; ends = ends ")"
    state(name "_holds", "Holds (" claim_text ")", "", "rw (built, customised) " proved)
}

# the questions, one by one; where another answer was worked out, it is stated too
function the_questions(    i) {
    for (i = 1; i <= asked || i <= answers; i++) {
        if (i > asked) { claim("-", "line " i + 1, with_ends(answered[i]), "rows", "nothing"); continue }
        if (answered[i] != worked[i]) the_answer("p" i, worked[i])
        the_question(i, from[i - 1] + 1 " " to[i - 1] + 1, "from " from[i - 1] + 1 " to " to[i - 1] + 1)
    }
    define("your_claims", "List Claim", all "\n    ∷ []")
    state("all_hold", "AllHold your_claims", "", proof "tt" ends)
    if (same && n <= 8 && asked <= 8) {
        claim("whole", "the whole answer", "byte for byte")
        state("whole", "answer your_text ≡ " numbers_in("answer-bytes"), "answer your_text", "refl")
    }
}
function the_question(i, pair, about,    word) {
    if (i > answers) return claim("-", about, "nothing", "p" i, in_words(worked[i]))
    split(answered[i], word, " ")
    if (without_zeros(word[1]) " " without_zeros(word[2]) != pair) return claim("-", about, with_ends(answered[i]), "p" i, in_words(worked[i]))
    if (answered[i] == worked[i]) claim("q" i, about, in_words(answered[i]))
    else claim("q" i, about, in_words(answered[i]), "p" i, in_words(worked[i]))
    the_answer("q" i, answered[i])
    as_claim("q" i, answered[i])
}

# the answer has what was worked out
function all_same(    i) {
    for (i = 1; i <= asked; i++) if (worked[i] != answered[i]) return 0
    return answers == asked && told == ours
}

# the numbers of a file as a list
function numbers_in(file,    line, said) {
    while ((getline line <file) > 0) said = said line
    gsub(/ +/, " ∷ ", said); sub(/^ ∷ /, "", said)
    return "(" (said == "" ? "" : said " ∷ ") "[])"
}

function read_text(    line, word) {
    n = m = asked = 0
    while ((getline line <"text") > 0) {
        split(line, word, " ")
        if (word[1] == "a") { tails[m] = word[2] - 1; heads[m] = word[3] - 1; costs[m++] = word[4] == "-" ? CLOSED : word[4] + 0 }
        else if (word[1] == "o") order[n++] = word[2] - 1
        else if (word[1] == "q") { from[asked] = word[2] - 1; to[asked++] = word[3] - 1 }
    }
}

function head_lines() {
    print "-- The net of a text, and what is claimed of it, by the definitions of crates/rules/specs and crates/text/specs." >specs
    print "use Rattle.std.specs.Prelude.{ℕ, true, List, [], ◌∷◌}" >specs
    print "use Rattle.rules.specs.Costs.{closed}\nuse Rattle.rules.specs.Replies.{refused}\nuse Rattle.rules.specs.Net.{Net, net}\nuse Rattle.rules.specs.Graph.{Graph, graph}" >specs
    print "use Rattle.rules.specs.Hierarchy.{EdgeCosts, edge_costs}\nuse Rattle.rules.specs.Calls.{route_left}" >specs
    print "use Rattle.rules.specs.Examples.{Claim, has_rows, has_costs, goes, nowhere, drives_on, stale}\nuse Rattle.text.specs.Program.{Read}" >specs
    print "\nunfoldable pub your_text : List ℕ\nyour_text = " numbers_in("bytes") >specs
    print "-- Each claim is computed by the checker." >proofs
    print "use mathlib.Core.Path.{refl}\nuse Rattle.std.specs.Prelude.{ℕ, ◌≡◌, List, [], ◌∷◌}" >proofs
    print "use Rattle.rules.specs.Costs.{closed}\nuse Rattle.rules.specs.Replies.{refused, edges, done, far, drive, no_walk, number_told}\nuse Rattle.rules.specs.Net.{Net, rank_list}" >proofs
    print "use Rattle.rules.specs.Hierarchy.{edge_costs}" >proofs
    print "use Rattle.rules.specs.Calls.{build_leaves, customise_leaves, distance_leaves, route_leaves, build_left, customise_left, distance_left, route_left}" >proofs
    print "use Rattle.rules.specs.Examples.{Holds, AllHold, has_rows, has_costs, goes, nowhere, drives_on, stale, built_by, customised_by}" >proofs
    print "use Rattle.text.specs.Program.{answer, read_all, text}" >proofs
    print "use Rattle.claim.specs.Claims.{your_text" (broken ? "" : ", yours, your_read") (graph_known ? ", your_rows, your_costs, your_rank, room, your_claims" : "") "}" >proofs
}

BEGIN {
    CLOSED = 4294967295
    for (i = 32; i < 127; i++) ASCII = ASCII sprintf("%c", i)
    specs = "specs.txt"; proofs = "proofs.txt"; list = "list"
    read_text()
    getline said <"program"
    getline told <"answer"; while ((getline line <"answer") > 0) answered[++answers] = line
    broken = said == "refused 14"
    ours = broken ? said : work_out()
    graph_known = ours ~ /^edges/ && told ~ /^edges/
    same = graph_known && all_same()
    head_lines()
    if (!broken) the_net()
    if (graph_known) { the_graph(); the_edges(without_zeros(substr(told, 7))); the_questions() }
    else the_whole()
}
