// A pencil box in millimetres: a box, a lid that slides in slanted grooves, a pin that locks it, and a pencil inside.
// `export.sh` exports each convex piece; without a choice the whole product is shown.
//
//     openscad -D 'piece="lid/west"' -o west.stl pencil-box.scad

piece = "all";      // the name of a piece, or of a whole part as "box", or "all"
turn = 0;           // degrees by which the whole product is turned about the upright axis
sides = 8;          // of the pin's head

hole = 3;           // width of the pin's square hole
x0 = 57 - hole / 2; // where the hole begins and ends, lengthwise
x1 = 57 + hole / 2;
y0 = 15 - hole / 2; // and across
y1 = 15 + hole / 2;

function is(name) = piece == "all" || piece == name || piece == split_front(name);
function split_front(name) = [for (i = [0:len(name) - 1]) if (name[i] == "/") chars(name, i)][0];
function chars(name, many, at = 0) = at < many ? str(name[at], chars(name, many, at + 1)) : "";

module block(from, to) { translate(from) cube(to - from); }

// A bar along x with a cross-section in y and z.
module bar(from, to, section) {
    translate([from, 0, 0]) rotate([90, 0, 90]) linear_extrude(to - from) polygon(section);
}

rotate([0, 0, turn]) {
    if (is("box/floor")) block([0, 0, 0], [60, 30, 2]);
    if (is("box/west-low")) block([0, 3, 2], [3, 27, 16]);
    if (is("box/west-high")) block([0, 0, 16], [3, 30, 19]);
    if (is("box/south-low")) block([0, 0, 2], [60, 3, 16]);
    if (is("box/north-low")) block([0, 27, 2], [60, 30, 16]);
    if (is("box/south-high")) bar(3, 60, [[0, 16], [2, 16], [3, 19], [0, 19]]);
    if (is("box/north-high")) bar(3, 60, [[30, 16], [30, 19], [27, 19], [28, 16]]);
    if (is("box/east-low")) block([54, 3, 2], [60, 27, 8]);
    if (is("box/east-inner")) block([54, 3, 8], [x0, 27, 16]);
    if (is("box/east-outer")) block([x1, 3, 8], [60, 27, 16]);
    if (is("box/east-south")) block([x0, 3, 8], [x1, y0, 16]);
    if (is("box/east-north")) block([x0, y1, 8], [x1, 27, 16]);

    if (is("lid/west")) bar(3, x0, [[2, 16], [28, 16], [27, 19], [3, 19]]);
    if (is("lid/east")) bar(x1, 60, [[2, 16], [28, 16], [27, 19], [3, 19]]);
    if (is("lid/south")) bar(x0, x1, [[2, 16], [y0, 16], [y0, 19], [3, 19]]);
    if (is("lid/north")) bar(x0, x1, [[y1, 16], [28, 16], [27, 19], [y1, 19]]);

    if (is("pin/shaft")) translate([57, 15, 8]) rotate(22.5) cylinder(h = 11, d = hole / cos(22.5), $fn = 8);
    if (is("pin/head")) translate([57, 15, 19]) cylinder(h = 2, d = 6, $fn = sides);

    if (is("pencil")) translate([5, 15, 2 + 3.5 * cos(30)]) rotate([90, 0, 90]) cylinder(h = 45, r = 3.5, $fn = 6);
}
