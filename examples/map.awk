# aprsbook-table NET.book | awk -f map.awk > net.svg
# A picture of the last places of stations, objects and items. Point at a mark to see the moment, who
# heard it and the comment. With `-v within=SOUTH,WEST,NORTH,EAST` (degrees) other places are left out.
# Longitude and latitude have one scale in the middle of the map.

function escaped(text) {
    gsub(/&/, "\\&amp;", text)
    gsub(/</, "\\&lt;", text)
    gsub(/>/, "\\&gt;", text)
    return text
}
function add(kind, name, moment, lat, lon, about) {
    if (within != "" && (lat < edge[1] || lat > edge[3] || lon < edge[2] || lon > edge[4])) return
    n++
    kinds[n] = kind; names[n] = name; moments[n] = moment
    lats[n] = lat; lons[n] = lon; abouts[n] = about
    if (n == 1 || lat < south) south = lat
    if (n == 1 || lat > north) north = lat
    if (n == 1 || lon < west) west = lon
    if (n == 1 || lon > east) east = lon
    if (moment > latest) latest = moment
}

# Some languages write a comma where numbers here have a point.
function fixed(value, decimals,   text) {
    text = sprintf("%." decimals "f", value)
    sub(/,/, ".", text)
    return text
}
function px(value) { return fixed(value, 1) }
function number(text) {
    sub(/\./, substr(sprintf("%.1f", 0.5), 2, 1), text)
    return text + 0
}

BEGIN {
    FS = "\t"
    if (within != "") split(within, edge, ",")
    for (i in edge) edge[i] = number(edge[i])
}
NR == 1 { for (i = 1; i <= NF; i++) at[$i] = i; next }
{ sent[$at["source"]]++ }
$at["latitude"] != "" {
    kind = $at["kind"] == "object" || $at["kind"] == "item" ? $at["kind"] : "station"
    it = kind " " (kind == "station" ? $at["source"] : $at["name"])
    heard = $at["last"] " " $at["receiver"]
    if (it in last && heard < last[it]) next
    if (!(it in last)) order[++things] = it
    last[it] = heard
    row[it] = $0
}
# The last place of a thing, whose row is that of the present line.
function add_last(it,   kind, state, about) {
    $0 = row[it]
    kind = it ~ /^station / ? "station" : $at["kind"]
    state = $at["state"]
    if (kind == "station")
        about = sent[$at["source"]] (sent[$at["source"]] == 1 ? " transmission" : " transmissions") \
            ", this place heard by " $at["receiver"]
    else about = state " " kind " of " $at["source"] ", heard by " $at["receiver"]
    add(state == "killed" ? state : kind, kind == "station" ? $at["source"] : $at["name"], $at["last"],
        number($at["latitude"]), number($at["longitude"]), about "\n" $at["text"])
}

# The picture: the map's corner is at (left, top), all in pixels.
function x(lon) { return left + (lon - west) * across }
function y(lat) { return top + (north - lat) * up }
function say(class, at_x, at_y, anchor, words) {
    printf "<text class='%s' x='%s' y='%s' text-anchor='%s'>", class, px(at_x), px(at_y), anchor
    print words "</text>"
}
function draw(class, at_x, at_y, rest) {
    printf "<path class='%s' d='M%s %s%s'/>\n", class, px(at_x), px(at_y), rest
}

# The least of .., 1, 2, 5, 10, 20, .. that is at least so much. (There is no logarithm, power or cosine
# here: not every awk has them.)
function round_step(least,   step) {
    step = 1
    while (step >= least) step /= 10
    while (step * 10 < least) step *= 10
    return step * 2 >= least ? step * 2 : step * 5 >= least ? step * 5 : step * 10
}
function decimals_of(step,   count) {
    while (count < 6 && step < 0.9999) { step *= 10; count++ }
    return count + 0
}
# The cosine of a latitude in degrees, by its series.
function cosine(latitude,   square) {
    square = latitude * 3.14159265358979 / 180
    square *= square
    return 1 - square / 2 * (1 - square / 12 * (1 - square / 30 * (1 - square / 56 * (1 - square / 90))))
}
function angle(value, step, marks,   half) {
    half = value < 0 ? substr(marks, 2, 1) : value > 0 ? substr(marks, 1, 1) : ""
    return fixed(value < 0 ? -value : value, decimals_of(step)) "&#176; " half
}
# Parallels at least 60 pixels apart and meridians at least 90, so that their angles can be read.
function graticule(   step, k) {
    step = round_step(60 / up)
    for (k = int(south / step) - 1; k * step < north; k++)
        if (k * step > south && k * step <= 90 && k * step >= -90) {
            draw("grid", left, y(k * step), "h" px(width))
            say("axis", left - 6, y(k * step) + 4, "end", angle(k * step, step, "NS"))
        }
    step = round_step(90 / across)
    for (k = int(west / step) - 1; k * step < east; k++)
        if (k * step > west && k * step <= 180 && k * step >= -180) {
            draw("grid", x(k * step), top, "v" px(height))
            say("axis", x(k * step), top + height + 16, "middle", angle(k * step, step, "EW"))
        }
}
# A bar of a round length, below the map on the right. A degree of latitude has 111.2 km.
function scale_bar(   kilometres, long, from, base) {
    kilometres = round_step(70 / up * 111.2)
    long = kilometres / 111.2 * up
    from = left + width - long
    base = top + height + 34
    draw("bar", from, base - 6, "v6h" px(long) "v-6")
    say("axis", from - 6, base, "end", kilometres < 1 ? kilometres * 1000 " m" : kilometres " km")
}
function mark(kind, at_x, at_y) {
    if (kind == "station") print "<circle class='station' cx='" px(at_x) "' cy='" px(at_y) "' r='4.5'/>"
    else if (kind == "object") draw(kind, at_x - 6, at_y - 6, "h12v12h-12z")
    else if (kind == "item") draw(kind, at_x, at_y - 8, "l7 12h-14z")
    else draw(kind, at_x - 4.5, at_y - 4.5, "l9 9m0-9l-9 9")
}

# Names: the picture is cut into cells of six pixels. A name goes where each cell is free, or taken by its
# own mark alone.
function is_free(owner, x1, y1, x2, y2,   i, j) {
    if (x1 < left + 2 || x2 > left + width - 2) return 0
    if (y1 < top + 2 || y2 > top + height - 2) return 0
    for (i = int(x1 / 6); i <= int(x2 / 6); i++)
        for (j = int(y1 / 6); j <= int(y2 / 6); j++)
            if ((i, j) in taken && taken[i, j] != owner) return 0
    return 1
}
function take(owner, x1, y1, x2, y2,   i, j) {
    for (i = int(x1 / 6); i <= int(x2 / 6); i++)
        for (j = int(y1 / 6); j <= int(y2 / 6); j++) {
            if ((i, j) in taken) taken[i, j] = 0
            else taken[i, j] = owner
        }
}
function leader(at_x, at_y, side, level, far, base,   end_x, end_y) {
    end_x = side ? at_x + side * 8 * far : at_x
    end_y = base - 4 - level * 5
    draw("leader", at_x + side * 6, at_y + level * 6, "L" px(end_x) " " px(end_y))
}
# Tries the places around a mark, near ones first; a far one gets a line to its mark. A name without a
# free place is left out, and stands in the title alone.
function put_name(i,   far, try, wide, at_x, at_y, x1, base) {
    wide = length(names[i]) * 7.6
    at_x = x(lons[i]); at_y = y(lats[i])
    for (far = 1; far <= 3; far++)
        for (try = 1; try <= 8; try++) {
            x1 = at_x - wide / 2 + side[try] * (wide / 2 + 8 * far)
            base = at_y + 4 + level[try] * (4 + 10 * far)
            if (!is_free(i, x1, base - 9, x1 + wide, base + 1)) continue
            take(0, x1, base - 9, x1 + wide, base + 1)
            if (far > 1) leader(at_x, at_y, side[try], level[try], far, base)
            say("name " kinds[i] "-name", x1 + wide / 2, base, "middle", escaped(names[i]))
            return
        }
    unnamed++
}
function legend(   i, at_x, base) {
    base = top + height + 34
    for (i = 1; i <= 4; i++) {
        at_x = left + 72 * i - 66
        mark(kind_of[i], at_x, base - 4)
        say("axis", at_x + 13, base, "start", kind_of[i])
    }
}
function head() {
    printf "<svg xmlns='http://www.w3.org/2000/svg'"
    printf " width='%d' height='%d'", left + width + 26, top + height + 48
    print " font-family='sans-serif' font-size='11'>"
    print "<style>"
    print ".paper { fill: #fff } .sheet { fill: #f7f9fc; stroke: #8a93a5 } .heading { font-size: 14px }"
    print ".grid { stroke: #d7deea } .axis { fill: #566 } .bar { fill: none; stroke: #566 }"
    print ".station { fill: #1864ab; stroke: #fff } .object { fill: #f08c4a; stroke: #b03a00 }"
    print ".item { fill: #8ccf8a; stroke: #2b6a35 } .killed { fill: none; stroke: #777; stroke-width: 2 }"
    print ".name { fill: #222; paint-order: stroke; stroke: #f7f9fc; stroke-width: 3px }"
    print ".killed-name { fill: #777 } .leader { stroke: #9aa } g:hover > * { stroke: #000 }"
    print "</style>"
    print "<rect class='paper' width='100%' height='100%'/>"
    printf "<rect class='sheet' x='%d' y='%d' ", left, top
    print "width='" px(width) "' height='" px(height) "'/>"
    say("heading", left, 22, "start", n (n == 1 ? " place" : " places"))
}
# The edges of the map, with room around the places, and its scale: `up` and `across` are pixels to a
# degree. A narrow map is made wider and a low one higher.
function measure(   pad, squeeze) {
    left = 74; top = 48
    pad = (north - south) * 0.07 + 0.002; south -= pad; north += pad
    pad = (east - west) * 0.07 + 0.002; west -= pad; east += pad
    squeeze = cosine((north + south) / 2)
    if (squeeze < 0.05) squeeze = 0.05
    up = 640 / (north - south)
    if ((east - west) * up * squeeze > 960) up = 960 / (east - west) / squeeze
    across = up * squeeze
    pad = (480 / across - (east - west)) / 2
    if (pad > 0) { west -= pad; east += pad }
    pad = (240 / up - (north - south)) / 2
    if (pad > 0) { south -= pad; north += pad }
    width = (east - west) * across
    height = (north - south) * up
}

END {
    for (k = 1; k <= things; k++) add_last(order[k])
    if (n == 0) {
        print "<svg xmlns='http://www.w3.org/2000/svg' width='400' height='60'>"
        print "<text x='20' y='35'>no places</text></svg>"
        exit
    }
    split("station item object killed", kind_of, " ")
    split("1 -1 0 0 1 -1 1 -1", side, " ")
    split("0 0 -1 1 -1 -1 1 1", level, " ")
    measure()
    head()
    graticule()
    scale_bar()
    legend()
    for (i = 1; i <= n; i++) take(i, x(lons[i]) - 4, y(lats[i]) - 4, x(lons[i]) + 4, y(lats[i]) + 4)
    for (i = 1; i <= n; i++) put_name(i)
    # stations last, so that one that stands on an object is seen
    for (k = 4; k >= 1; k--) for (i = 1; i <= n; i++) if (kinds[i] == kind_of[k]) {
        printf "<g>"
        mark(kinds[i], x(lons[i]), y(lats[i]))
        print "<title>" escaped(names[i]) "  " moments[i] "\n" escaped(abouts[i]) "</title></g>"
    }
    latest = "the last heard at " substr(latest, 1, 10) " " substr(latest, 12, 8) " UTC"
    say("axis", left, 38, "start", latest (unnamed ? ", " unnamed " without their name" : ""))
    print "</svg>"
}
