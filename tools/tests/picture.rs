//! Pictures of the examples, drawn from what `roll` prints for them (examples/*.txt).

mod common;

use common::{example, path, run, NAMES};
use reference::sheet::Records;
use sheet_tools::{roll, sheet, trace};

const SVG: &str = env!("CARGO_BIN_EXE_sheet-svg");

/// The options of the stored pictures of the examples corner and cell, as in the script `pictures`.
const CORNER: &str = "--grid|8|--view|128|128|1920|896\
    |--note|768|768|1 has one point here:|--note|768|730|the corner\
    |--note|1280|768|2 has no point here\
    |--note|620|528|(512, 512)|--note|1410|528|(1536, 512)";

const CELL: &str = "--grid|8|--cell|1|1|--view|320|256|1216|1152";

/// The picture of an example under some options.
fn picture(name: &str, options: &[&str]) -> Result<String, String> {
    picture_with(name, name, options)
}

/// The picture of one example with the roll of another.
fn picture_with(sheet: &str, roll: &str, options: &[&str]) -> Result<String, String> {
    let sheet = path(&format!("examples/{sheet}.sheet"));
    let roll = path(&format!("examples/{roll}.txt"));
    let arguments = [options, &[&sheet, &roll]].concat();
    run(SVG, &arguments, b"").map(|svg| String::from_utf8(svg).unwrap())
}

#[test]
fn ends_of_a() {
    let svg = picture("A", &[]).unwrap();
    assert!(svg.contains("<line x1=\"100\" y1=\"100\" x2=\"200\" y2=\"100\"/>"));
    assert!(svg.contains("<line x1=\"200\" y1=\"50\" x2=\"200\" y2=\"4095\"/>"));
    assert!(svg.contains("<circle cx=\"200\" cy=\"100\""));
    assert!(svg.contains("<circle cx=\"200\" cy=\"4095\""));
    assert!(svg.contains("track 1 ends at trace 2 from its left, time 10/1"));
    assert!(svg.contains("track 2 ends at the edge, time 809/2"));
}

#[test]
fn ends_are_exact() {
    // J's trace ends at 2/3, not at 42/64.
    let svg = picture("J", &[]).unwrap();
    assert!(svg.contains("x2=\"0.666667\" y2=\"0.666667\""));
    assert!(svg.contains("<line x1=\"0\" y1=\"1\" x2=\"2\" y2=\"0\"/>"));
}

#[test]
fn late_starts_are_hollow_with_their_times() {
    let svg = picture("late", &[]).unwrap();
    // 1 ends as it opens: the mark of its end stands in the hollow dot.
    let hollow = svg.split("<g fill=\"#fff\" stroke=\"#555\"").nth(1).unwrap().split("</g>").next().unwrap();
    assert!(hollow.contains("cx=\"0\" cy=\"100\"") && hollow.contains("<title>track 1 starts at 20</title>"));
    assert!(hollow.contains("cx=\"200\" cy=\"150\"") && hollow.contains("<title>track 4 starts at 5</title>"));
    assert_eq!(hollow.matches("<circle").count(), 2);
    assert!(svg.contains(">1 from 20</text>") && svg.contains(">4 from 5</text>") && svg.contains(">2</text>"));
    assert!(svg.contains("track 1 ends at the edge, time 20/1") && svg.contains(">late start, id and time</text>"));
    assert!(!picture("A", &[]).unwrap().contains("late start"));
}

#[test]
fn endings_of_two_kinds_at_one_point_are_rings() {
    let svg = picture("late", &[]).unwrap();
    let radius = |words: &str| {
        let circle = svg.lines().find(|line| line.contains(words)).unwrap();
        let (_, rest) = circle.split_once(" r=\"").unwrap();
        rest.split_once('"').unwrap().0.parse::<f64>().unwrap()
    };
    // At the edge, where 1 opens and ends, 2 ends on it later.
    let (edge, trace, start) = (radius("track 1 ends"), radius("track 2 ends"), radius("track 1 starts"));
    assert!(1.5 * trace < edge && edge < start);
    // 3 and 4 meet.
    assert!(radius("track 3 ends") == trace && radius("track 4 ends") == trace);
    assert_eq!(svg.matches(" stroke=\"#fff\"").count(), 1);
}

/// The letters of the sides in a picture, in the roll's order.
fn letters(svg: &str) -> String {
    let group = svg.split("font-size=\"10\" text-anchor=\"middle\">\n").nth(1).unwrap().split("</g>").next().unwrap();
    group.lines().map(|line| line.split(['>', '<']).nth(2).unwrap()).collect()
}

#[test]
fn sides_are_letters_at_the_ends() {
    let drawn = |name| letters(&picture(name, &[]).unwrap());
    assert_eq!(["B", "E", "H1", "J"].map(drawn), ["LR", "LLLL", "L", "R"]);
    assert_eq!([drawn("sides"), drawn("facing")], ["LRALR", "AARRARAL"]);
    // A tip that ends as it opens has no trace for a letter to stand beside, and the edge has no side.
    assert_eq!(["behind", "opening", "late", "I2"].map(drawn), ["AALL", "LRL", "LRR", ""]);
    let legend = ">from left, right, along</text>";
    assert!(picture("E", &[]).unwrap().contains(legend) && !picture("I2", &[]).unwrap().contains(legend));
    // Of the 64 tips that meet in one point only the outermost have room.
    assert_eq!(drawn("D"), "LR");
}

#[test]
fn sides_are_told_where_the_pointer_rests() {
    let tells = |name, words| assert!(picture(name, &[]).unwrap().contains(words), "{name}: {words}");
    tells("B", "track 1 ends at tip 2 from its left, time 10/1");
    tells("B", "track 2 ends at tip 1 from its right, time 10/1");
    tells("F", "track 2 ends at wall 1 from its right, time 5/1");
    tells("F", "track 1 ends at the edge, time 799/2");
    tells("G", "track 1 ends at trace 2 along its line, time 10/1");
    tells("sides", "track 1 ends at wall 1 from its left, time 10/1");
    tells("sides", "track 2 ends at wall 2 from its right, time 10/1");
    tells("sides", "track 3 ends at wall 3 along its line, time 10/1");
    tells("facing", "track 3 ends at trace 4 along its line, time 8/1");
}

#[test]
fn shaded_cells_are_those_entered() {
    for name in NAMES {
        let commands = sheet::from_bytes(&example(&format!("{name}.sheet"))).unwrap();
        let tracks = Records::of(&commands).tracks;
        let text = String::from_utf8(example(&format!("{name}.txt"))).unwrap();
        let roll = roll::parse(&text).unwrap();
        let traces = trace::traces(&tracks, &roll).unwrap();
        let count: usize = traces.iter().map(|trace| trace.cells(8).len()).sum();
        assert_eq!(count, roll.cells as usize, "{name}");
    }
}

#[test]
fn grid_shades_each_cell_once() {
    let svg = picture("A", &["--grid", "8"]).unwrap();
    assert_eq!(svg.matches("width=\"512\"").count(), 8);
    assert!(picture("A", &["--grid", "3"]).unwrap_err().contains("1, 2, 4, 8, 16 or 32"));
}

/// What the legend says of the tracks that a cell lists.
fn listed(name: &str, figure: &str, column: &str, row: &str) -> Vec<String> {
    let svg = picture(name, &["--grid", figure, "--cell", column, row]).unwrap();
    assert!(svg.contains(&format!(">cell {column} {row} lists:</text>")));
    let lines = svg.split("</text>").filter(|part| part.contains(", enters at "));
    lines.map(|part| part.rsplit('>').next().unwrap().to_string()).collect()
}

#[test]
fn a_cell_lists_by_entering() {
    // 3 and 4 come to two borders of the cell at one time, 3 to the one that the cell has not.
    let lines = ["7, enters at 0/1", "3, enters at 8/1", "4, enters at 8/1", "1, enters at 16/1"];
    assert_eq!(listed("cell", "8", "1", "1"), lines);
    // 7 starts on the border of two cells and leaves it at once.
    assert_eq!(listed("cell", "8", "2", "1"), ["3, enters at 0/1", "7, enters at 0/1"]);
    assert_eq!(listed("cell", "8", "7", "7"), [""; 0]);
    assert_eq!(listed("D", "1", "0", "0").len(), 64);
}

#[test]
fn a_cell_has_a_ring_at_each_entry_and_room_for_its_listing() {
    let svg = picture("A", &["--grid", "1", "--cell", "0", "0", "--view", "0", "0", "4000", "0"]).unwrap();
    assert!(svg.contains("<title>1. track 1 enters at 0/1</title>") && svg.contains("cx=\"100\" cy=\"100\" r="));
    assert!(svg.contains("<title>2. track 2 enters at 0/1</title>"));
    // The drawing is 200 high, the legend 10 lines and those of the cell and its two tracks.
    assert!(svg.starts_with("<svg xmlns=\"http://www.w3.org/2000/svg\" width=\"840\" height=\"280\""));
}

#[test]
fn a_cell_is_one_of_the_grid() {
    let wrong = |options: &[&str]| picture("A", options).unwrap_err();
    assert_eq!(wrong(&["--cell", "0", "0"]), "sheet-svg: --cell is for a grid: give --grid as well\n");
    for [column, row] in [["8", "0"], ["0", "8"]] {
        let said = wrong(&["--cell", column, row, "--grid", "8"]);
        assert_eq!(said, "sheet-svg: the cell is outside the grid\n");
    }
    assert!(wrong(&["--grid", "8", "--cell", "-1", "0"]).contains("usage"));
}

#[test]
fn view_leaves_out_what_it_does_not_show() {
    let svg = picture("F", &["--view", "0", "0", "200", "300"]).unwrap();
    assert!(svg.contains("viewBox=\"-21.421875 -321.421875 242.84375 342.84375\""));
    assert!(svg.contains(">1</text>") && !svg.contains(">2</text>") && !svg.contains(">w1</text>"));
}

/// The numbers of the whole 64ths in a picture, those across before those upwards.
fn numbers(svg: &str) -> Vec<u32> {
    let group = svg.split("<g fill=\"#777\"").nth(1).unwrap().split("</g>").next().unwrap();
    let texts = group.lines().filter(|line| line.starts_with("<text"));
    texts.map(|line| line.split(['>', '<']).nth(2).unwrap().parse().unwrap()).collect()
}

#[test]
fn an_end_is_shown_among_the_64ths() {
    let svg = picture("halves", &["--end", "1"]).unwrap();
    assert!(svg.contains("viewBox=\"101.0625 -100.5625 0.125 0.125\""));
    assert!(svg.contains("<circle cx=\"101.117188\" cy=\"100.507813\""));
    assert!(svg.contains("<path d=\"M101.125 100.5m-"));
    // Of the lines upwards, trace 1 runs where the number of 6431 would stand.
    assert_eq!(numbers(&svg), [6469, 6470, 6471, 6472, 6473, 6474, 6475, 6429, 6430, 6432, 6433, 6434, 6435]);
    assert!(svg.contains("<path d=\"M101.109375 100.4375V100.5625\"/>"));
    assert!(svg.contains("<path d=\"M101.0625 100.484375H101.1875\"/>"));
    assert_eq!(letters(&svg), "L");
    let legend = [">end point in the row, in 64ths</text>", ">whole 64ths</text>"];
    let whole = picture("halves", &[]).unwrap();
    assert!(legend.iter().all(|words| svg.contains(words) && !whole.contains(words)));
}

#[test]
fn exact_ends_are_told_where_the_pointer_rests() {
    let told = |name, id| {
        let svg = picture(name, &["--end", id]).unwrap();
        let group = svg.split("pointer-events=\"all\"").nth(1).unwrap().split("</g>").next().unwrap();
        let titles = group.split("</title>").filter_map(|part| Some(part.split_once("<title>")?.1.to_string()));
        titles.collect::<Vec<_>>()
    };
    assert_eq!(told("halves", "1"), ["track 1: 6472, 6432 for 6471 1/2, 6432 1/2"]);
    assert_eq!(told("halves", "2"), ["track 2: 6479, 6464 for 6478 10/13, 6464"]);
    assert_eq!(told("halves", "3"), ["track 3: 6434, 6528 for 6434 6/13, 6528"]);
    assert_eq!(told("J", "1"), ["track 1: 43, 43 for 42 2/3, 42 2/3"]);
    // Tips that meet have one mark.
    assert_eq!(told("B", "2"), ["track 1: 12800, 6400 for 12800, 6400\ntrack 2: 12800, 6400 for 12800, 6400"]);
}

#[test]
fn an_end_at_the_edge_has_the_numbers_of_the_sheet() {
    let svg = picture("A", &["--end", "2"]).unwrap();
    let across = 12797..12804;
    assert_eq!(numbers(&svg), across.chain(262077..262081).collect::<Vec<_>>());
    // Trace 2 comes from far below and trace 1 ends there.
    assert!(svg.contains("<line x1=\"200\" y1=\"4094.8125\" x2=\"200\" y2=\"4095\"/>"));
    assert_eq!([svg.matches("<line").count(), svg.matches(", time ").count()], [1, 1]);
}

#[test]
fn an_end_is_one_of_the_roll_in_a_view_of_its_own() {
    let wrong = |options: &[&str]| picture("A", options).unwrap_err();
    assert_eq!(wrong(&["--end", "3"]), "sheet-svg: --end 3: no row of track 3\n");
    let view = ["--view", "0", "0", "400", "300", "--end", "1"];
    assert_eq!(wrong(&view), "sheet-svg: --end shows a part of its own: leave out --view\n");
    assert_eq!(wrong(&["--end", "1", "--grid", "8"]), "sheet-svg: --end shows a part of its own: leave out --grid\n");
    for id in ["-1", "65536", "x"] {
        assert!(wrong(&["--end", id]).contains("usage"));
    }
}

#[test]
fn notes_stand_in_the_view() {
    let note = |x: &str| picture("A", &["--view", "0", "0", "300", "300", "--note", x, "90", "a <b & c"]);
    let words = ">a &lt;b &amp; c</text>";
    assert!(note("90").unwrap().contains(words) && !note("900").unwrap().contains(words));
    assert!(note("-1").unwrap_err().contains("usage"));
}

#[test]
fn refused_and_foreign_rolls_are_errors() {
    let wrong = [
        (picture("refused", &[]), "roll refused the sheet: 10, place 9"),
        (picture_with("A", "refused", &[]), "roll refused the sheet: 10, place 9"),
        (picture_with("A", "D", &[]), "2 tracks in the sheet, 64 rows"),
        (picture_with("A", "F", &[]), "row of track 2: its end point is not at its time"),
    ];
    for (said, expected) in wrong {
        assert_eq!(said.unwrap_err(), format!("sheet-svg: {expected}\n"));
    }
}

#[test]
fn texts_that_are_no_rolls_are_errors() {
    let cases = [
        ("", "line 1: not the output of roll"),
        ("tracks 1 cells x\n", "line 1: not the output of roll"),
        ("tracks 1 cells 1\n", "0 rows for 1 tracks"),
        ("tracks 1 cells 1\n1 5 0 1/1 0 0 1\n", "line 2: not a row of a roll"),
        ("tracks 1 cells 1\n1 4 0 1/0 0 0 0\n", "line 2: not a row of a roll"),
        ("tracks 1 cells 1\n1 4 7 1/1 0 0 0\n", "line 2: not a row of a roll"),
        ("tracks 1 cells 1\n1 4 0 1/1 0 0\n", "line 2: not a row of a roll"),
        ("tracks 1 cells 1\n1 4 0 1/1 0 0 1\n", "line 2: not a row of a roll"),
        ("tracks 1 cells 1\n1 3 7 1/1 0 0 0\n", "line 2: not a row of a roll"),
        ("tracks 1 cells 1\n1 3 7 1/1 0 0 4\n", "line 2: not a row of a roll"),
    ];
    for (text, wrong) in cases {
        assert_eq!(roll::parse(text).err().as_deref(), Some(wrong));
    }
}

/// Where the ids of a picture stand, with their widths: those in the group before the legend.
fn ids(svg: &str) -> Vec<[f64; 3]> {
    let number = |text: &str, mark: &str| {
        let (_, rest) = text.split_once(mark).unwrap();
        rest.split_once('"').unwrap().0.parse::<f64>().unwrap()
    };
    let group = svg.split("<g text-anchor").nth(1).unwrap().split("</g>").next().unwrap();
    let texts = group.lines().filter(|line| line.starts_with("<text"));
    let digits = |line: &str| line.split('>').nth(1).unwrap().len() - "</text".len();
    texts.map(|line| [number(line, " x=\""), number(line, " y=\""), 6.0 * digits(line) as f64]).collect()
}

#[test]
fn ids_stand_apart() {
    let found = NAMES.map(|name| {
        let ids = ids(&picture(name, &[]).unwrap());
        for (index, [x, y, wide]) in ids.iter().enumerate() {
            for [x2, y2, wide2] in &ids[..index] {
                let apart = (x - x2).abs() > (wide + wide2) / 2.0 || (y - y2).abs() > 8.0;
                assert!(apart, "{name}: ids at {x} {y} and {x2} {y2}");
            }
        }
        ids.len()
    });
    // There is no room for half of D's ids with two digits, nor for F's wall between trace 1 and the edge.
    assert_eq!(found, [2, 2, 2, 36, 4, 2, 2, 2, 2, 1, 1, 2, 0, 4, 6, 6, 7, 4, 9, 12, 5]);
}

#[test]
fn stored_pictures_are_the_drawn_ones() {
    let stored = |name: &str| std::fs::read_to_string(path(&format!("docs/pictures/{name}.svg")));
    for name in NAMES {
        let options: Vec<&str> = match name {
            "corner" => CORNER.split('|').collect(),
            "cell" => CELL.split('|').collect(),
            _ => vec![],
        };
        assert_eq!(stored(name).unwrap(), picture(name, &options).unwrap(), "{name}");
    }
    for name in ["A", "C", "F", "G", "H2"] {
        let near = picture(name, &["--view", "0", "0", "400", "300"]).unwrap();
        assert_eq!(stored(&format!("{name}-near")).unwrap(), near, "{name}");
    }
    assert_eq!(stored("halves-end").unwrap(), picture("halves", &["--end", "1"]).unwrap());
    for name in ["A", "D"] {
        let whole = ["--grid", "8", "--view", "0", "0", "4095", "4095"];
        let options = if name == "A" { &whole[..] } else { &whole[..2] };
        let grid = picture(name, options).unwrap();
        assert_eq!(stored(&format!("{name}-grid")).unwrap(), grid, "{name}");
    }
}
