//! How the marks look: black on white, one blue that is a middle grey in print.

/// The classes of all marks.
pub const STYLE: &str = "\
text{font-family:\"DejaVu Sans\",Verdana,Arial,sans-serif;font-size:12px;fill:#000}
.title{font-size:20px;font-weight:bold}.verdict{font-size:14px}.refused{font-size:14px;font-weight:bold}
.part{font-size:14px;font-weight:bold}.small{font-size:11px}.end{text-anchor:end}.middle{text-anchor:middle}
.step{font-weight:bold;text-anchor:middle}.date{font-size:11px;text-anchor:middle}.fee{font-size:11px;text-anchor:middle}.up{font-size:11px}
.used{font-size:11px}.edge{fill:#fff;stroke:#fff;stroke-width:3px;stroke-linejoin:round}
.late-words{font-size:11px;font-weight:bold;fill:#fff}
.sheet{fill:#fff}.frame{fill:none;stroke:#000}
.idle{fill:#d9d9d9}.hatch{fill:url(#hatch)}
.life{fill:#fff;stroke:#000;stroke-width:1}.wear{fill:#7fa8cf}.late{fill:#000}
.stop{stroke:#000;stroke-width:1.6}.lead{stroke:#000;stroke-width:.8}.across{stroke:#000;stroke-width:.8;stroke-dasharray:2 3}
.opening{stroke:#666;stroke-width:1.2}.tick{stroke:#000;stroke-width:1}.grid{stroke:#999;stroke-width:.5;stroke-dasharray:1 3}
.call{fill:#000}.call-alone{fill:#fff;stroke:#000;stroke-width:1.6}.call-line{stroke:#000;stroke-width:.6}
.sum{stroke:#000;stroke-width:1}.fees{fill:#4a4a4a}.removals{fill:#d9d9d9}.other{fill:#fff}.parts{fill:#7fa8cf}.band,.band-key{fill:#dbe7f3}
.sum-words{font-size:11px}.light{fill:#fff}.cheapest,.cheapest-key{stroke:#000;stroke-width:3}
.open{fill:url(#hatch);stroke:#000;stroke-dasharray:4 3}.sum-key{stroke:#000}
.worn{fill:#c4c4c4}.today{stroke:#000;stroke-width:4;stroke-dasharray:9 5}.today-words{font-size:12px;font-weight:bold;text-anchor:middle}
.change{fill:#000;stroke:#fff;stroke-width:1}.back{fill:#fff;stroke:#000;stroke-width:1.4}.cost{font-size:15px;font-weight:bold}
line.done{stroke:#8a8a8a}text.done{fill:#767676}polygon.change.done{fill:#767676}polygon.back.done{stroke:#767676}
";

/// The pattern of idle steps.
pub const HATCH: &str = "\
<defs><pattern id=\"hatch\" width=\"6\" height=\"6\" patternUnits=\"userSpaceOnUse\">\
<path d=\"M0 6L6 0\" stroke=\"#555\" stroke-width=\".7\"/></pattern></defs>
";
