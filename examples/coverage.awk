# aprsbook-table NET.book | awk -f coverage.awk > coverage.svg
# A bar for each receiver: how many of the book's transmissions it heard, and how many it alone heard.

BEGIN { FS = "\t" }
NR == 1 { for (i = 1; i <= NF; i++) at[$i] = i; next }
{
    total++
    n = split($at["receivers"], by, ",")
    for (i = 1; i <= n; i++) {
        if (!(by[i] in heard)) names[++receivers] = by[i]
        heard[by[i]]++
        if (n == 1) alone[by[i]]++
    }
}

# The receiver that heard most of those that aren't drawn yet; of equal ones the first by name.
function next_name(   i, name, best) {
    for (i = 1; i <= receivers; i++) {
        name = names[i]
        if (name in drawn) continue
        if (best == "" || heard[name] > heard[best] || (heard[name] == heard[best] && name "" < best ""))
            best = name
    }
    drawn[best] = 1
    return best
}
# A round step that parts the number in at most six.
function step_of(number,   step) {
    step = 1
    while (number / step > 6) step *= (step ~ /^20*$/) ? 2.5 : 2
    return step
}
# With one decimal, after a point in any language.
function px(value,   text) {
    text = sprintf("%.1f", value)
    sub(/,/, ".", text)
    return text
}
function say(class, at_x, at_y, anchor, words) {
    printf "<text class='%s' x='%s' y='%d' text-anchor='%s'>", class, px(at_x), at_y, anchor
    print words "</text>"
}
function block(class, at_x, at_y, wide, high, title) {
    printf "<rect class='%s' x='%s' y='%d' ", class, px(at_x), at_y
    printf "width='%s' height='%d'>", px(wide), high
    print "<title>" title "</title></rect>"
}
function bar(name, row,   at, share) {
    at = top + 28 * row
    share = sprintf("%d, %.0f %%; alone %d", heard[name], 100 * heard[name] / total, alone[name])
    say("receiver", left - 8, at + 16, "end", name)
    block("heard", left, at + 2, heard[name] * scale, 20, name " heard " heard[name] " of " total)
    block("alone", left, at + 2, alone[name] * scale, 20, "no other heard " (alone[name] + 0) " of these")
    say("count", left + heard[name] * scale + 6, at + 16, "start", share)
}
function head() {
    printf "<svg xmlns='http://www.w3.org/2000/svg'"
    printf " width='%d' height='%d'", left + width + 150, top + height + 48
    print " font-family='sans-serif' font-size='12'>"
    print "<style>"
    print ".paper { fill: #fff } .heading { font-size: 14px } .grid { stroke: #d7deea }"
    print ".axis { fill: #566; font-size: 11px } .heard { fill: #74a9d8 } .alone { fill: #1864ab }"
    print ".count { paint-order: stroke; stroke: #fff; stroke-width: 3px }"
    print "</style>"
    print "<rect class='paper' width='100%' height='100%'/>"
    say("heading", left, 22, "start", total + 0 (total == 1 ? " transmission" : " transmissions"))
    block("heard", left, 33, 10, 10, "")
    say("axis", left + 15, 42, "start", "heard by the receiver")
    block("alone", left + 150, 33, 10, 10, "")
    say("axis", left + 165, 42, "start", "heard by it alone")
}
function axis(   k) {
    for (k = 0; k <= total; k += step_of(total)) {
        printf "<path class='grid' d='M%s %dv%d'/>", px(left + k * scale), top, height
        say("axis", left + k * scale, top + height + 16, "middle", k)
    }
    say("axis", left + width / 2, top + height + 34, "middle", "transmissions")
}

END {
    left = 140; top = 56
    width = 560
    height = 28 * receivers
    scale = total ? width / total : 0
    head()
    if (total) axis()
    for (row = 0; row < receivers; row++) bar(next_name(), row)
    print "</svg>"
}
