//! Sizes and layout of what crosses the boundary, refusals, and the safe calls.
use palgwern::*;

const LAYOUT: &[u8] = include_bytes!("layout.sheet");

fn refusal(word: Word, line: u32) -> Option<Refusal> {
    Some(Refusal { word, line, pair: None })
}

/// The values of each field of an axis; the template as it is written is the one that counts.
fn values(grid: AxisGrid, room: AxisRoom) -> [u64; 15] {
    let (space, template, implicit, size) = (grid.space, grid.template, grid.implicit, grid.size);
    assert_eq!(template, room.template);
    [
        space.definite.into(), space.inner.into(), space.rule.into(), space.gap, template.components.into(), template.tracks.into(),
        implicit.negative.into(), implicit.positive.into(), implicit.spares.into(), grid.entries.into(), size.repetitions.into(),
        size.explicit.into(), room.names.into(), room.used.into(), room.areas.into(),
    ]
}

/// No two are the same, so that a swap of fields would show.
fn assert_different<T: PartialEq + std::fmt::Debug>(values: &[T]) {
    for (place, value) in values.iter().enumerate() {
        assert!(!values[..place].contains(value), "{value:?} twice");
    }
}

#[test]
fn every_field() {
    let panel = Panel::read(LAYOUT).unwrap();
    let State { grid, room } = panel.state();
    let (columns, rows) = (values(grid.columns, room.columns), values(grid.rows, room.rows));
    assert_eq!(columns, [1, 0x4407_0000, 0, 0x1_3c23_d70a, 3, 4, 7, 8, 5, 22, 9, 20, 6, 13, 10]);
    assert_eq!(rows, [0, 0, 1, 0x4000_0000, 2, 3, 6, 10, 4, 11, 0, 9, 5, 14, 8]);
    assert_eq!((grid.areas, grid.placements, grid.cells, room.areabytes, room.placementbytes), (3, 2, 0, 11, 12));
    let pairs: Vec<(u64, u64)> = columns.into_iter().zip(rows).collect();
    assert_different(&pairs);
    assert!(pairs.iter().all(|(in_columns, in_rows)| in_columns != in_rows));
    assert_eq!(panel.grid(), grid);
    assert_eq!((std::mem::offset_of!(AxisSpace, gap), std::mem::offset_of!(AxisGrid, size)), (16, 48));
    assert_eq!((std::mem::offset_of!(Grid, areas), std::mem::offset_of!(State, room)), (112, 128));
    assert_eq!(std::mem::offset_of!(raw::PanelAnswer, panel), 8);
    assert_eq!((std::mem::offset_of!(raw::SheetAnswer, panel), std::mem::offset_of!(raw::DisplayAnswer, grid)), (16, 16));
    assert_eq!(std::mem::offset_of!(raw::CountAnswer, count), 8);
}

#[test]
fn answers() {
    let panel = Panel::read(LAYOUT).unwrap();
    assert_eq!(panel.size(Axis::Columns), AxisSize { repetitions: 9, explicit: 20 });
    assert_eq!(panel.size(Axis::Rows), AxisSize { repetitions: 0, explicit: 9 });
    assert_eq!((panel.lists(Axis::Columns), panel.lists(Axis::Rows)), (21, 10));
    assert_eq!((panel.record_count(Axis::Columns), panel.record_count(Axis::Rows)), (71, 51));
    assert_eq!(panel.placement(0), Ok(Placement { axis: Axis::Columns, cell: false, start: End::Line(5), end: End::Span(6), startheld: false, endheld: false }));
    assert_eq!(panel.placement(1), Ok(Placement { axis: Axis::Rows, cell: false, start: End::Line(-3), end: End::Line(12), startheld: false, endheld: false }));
    assert!(panel.resolved().eq([panel.placement(0).unwrap(), panel.placement(1).unwrap()]));
    let mut run = [7; PLACEMENT_RUN];
    assert_eq!((panel.write_placements(1, &mut run), &run[..9]), (Ok(1), &[0, 1, 1, -3, 1, 12, 0, 0, 7][..]));
    assert!(run[8..].iter().all(|&number| number == 7));
}

#[test]
fn line_names() {
    let panel = Panel::read(LAYOUT).unwrap();
    let names: Vec<Vec<&str>> = (1..=4).map(|line| panel.names(Axis::Columns, line).collect()).collect();
    assert_eq!(names, [vec!["x"], vec!["yy", "zzz"], vec!["uuuuu"], vec!["zzz"]]);
    assert_eq!((panel.name(Axis::Columns, 0, 0), panel.name(Axis::Rows, 1, 0)), (None, Some("rowname")));
    assert_eq!((panel.name(Axis::Rows, 2, 1), panel.name(Axis::Rows, 3, 1)), (Some("q"), None));
    assert!(panel.line_names(Axis::Columns).take(5).eq([(1, "x"), (2, "yy"), (2, "zzz"), (3, "uuuuu"), (4, "zzz")]));
    assert_eq!((panel.line_names(Axis::Columns).len(), panel.line_names(Axis::Rows).next()), (22, Some((1, "rowname"))));
    let mut run = [7; LINE_NAME_RUN];
    assert_eq!((panel.write_line_names(Axis::Columns, &mut run), run[3]), (Ok(22), 3 | 6 << 16 | 5 << 32));
    assert!(run[22..].iter().all(|&word| word == 7));
}

#[test]
fn records() {
    let panel = Panel::read(LAYOUT).unwrap();
    let open = |minimum, maximum, source| Record { gutter: false, collapsed: false, minimum, maximum, source };
    let shut = |gutter, source| Record { gutter, collapsed: true, minimum: Size::Length(0.0), maximum: Size::Length(0.0), source };
    let columns: Vec<Record> = panel.records(Axis::Columns).collect();
    assert_eq!((columns.len(), columns[0]), (71, shut(true, Source::Gutter)));
    assert_eq!(columns[5], open(Size::Length(20.0), Size::Fraction(1.0), Source::Negative));
    assert_eq!(columns[15], open(Size::Length(20.0), Size::Length(20.0), Source::Template));
    assert_eq!(columns[17], open(Size::Length(20.0), Size::Length(20.0), Source::Automatic));
    assert_eq!((columns[19], columns[55].source), (shut(false, Source::Automatic), Source::Positive));
    let rows: Vec<Record> = panel.records(Axis::Rows).collect();
    assert_eq!((rows.len(), rows[2].gutter, rows[2].collapsed, rows[2].minimum), (51, true, false, Size::Length(2.0)));
    let negative = |minimum, maximum| open(minimum, maximum, Source::Negative);
    assert_eq!((rows[3], rows[5]), (negative(Size::Length(50.0), Size::Length(100.0)), negative(Size::MinContent, Size::MaxContent)));
    assert_eq!(rows[7], negative(Size::Auto, Size::FitContentPercent(0.5)));
    assert_eq!(rows[13], open(Size::Auto, Size::FitContentLength(20.0), Source::Template));
    let mut whole = vec![0; 213];
    assert_eq!(panel.write_records(Axis::Columns, panel.items(Axis::Columns), 0, &mut whole), Ok(71));
    let mut part = [7; 31];
    for first in [0, 10, 70] {
        let count = panel.write_records(Axis::Columns, panel.items(Axis::Columns), first, &mut part).unwrap();
        assert_eq!((count, &part[..3 * count], part[30]), (10.min(71 - first as usize), &whole[3 * first as usize..][..3 * count], 7));
    }
}

/// Every source, in the order of its tracks.
#[test]
fn sources() {
    let sheet = b"area\ta\t1\t2\t1\t4\ntrack\tc\tauto\t00000000\tauto\t00000000\nextra\tc\t1\t1\n";
    let records: Vec<Record> = Panel::read(sheet).unwrap().records(Axis::Columns).collect();
    let found: Vec<Source> = records.iter().map(|record| record.source).filter(|&source| source != Source::Gutter).collect();
    assert_eq!(found, [Source::Negative, Source::Template, Source::Area, Source::Area, Source::Positive]);
    assert!(records.iter().step_by(2).all(|record| record.gutter && record.source == Source::Gutter));
}

/// The lines of tracks of 20, 100, half of 200 and 20 with gaps of 10: at 0, 30, 140, 250 and 270, the second the first explicit one.
#[test]
fn nearest_lines() {
    let sheet = b"axis\tc\t43480000\tmax\tlen\t41200000\ntrack\tc\tlen\t42c80000\tlen\t42c80000\n\
        track\tc\tpct\t3f000000\tpct\t3f000000\nspare\tc\tlen\t41a00000\tlen\t41a00000\nextra\tc\t1\t1\n\
        track\tr\tpct\t3f000000\tpct\t3f000000\n";
    let panel = Panel::read(sheet).unwrap();
    for (cursor, line) in [(0.0, -4), (15.0, -4), (16.0, 1), (140.0, 2), (260.0, 3), (260.5, 4), (65_535.0, 4)] {
        assert_eq!(panel.nearest_line(Axis::Columns, cursor), Ok(line));
    }
    assert_eq!(panel.nearest_line(Axis::Columns, -0.0).err(), refusal(Word::Value, 0));
    assert_eq!(panel.nearest_line(Axis::Columns, f32::NAN).err(), refusal(Word::Value, 0));
    assert_eq!(panel.nearest_line(Axis::Columns, 65_536.0).err(), refusal(Word::Value, 0));
    assert_eq!(panel.nearest_line_with(Axis::Columns, &[0; 3], 0.0).err(), refusal(Word::Short, 0));
    assert_eq!(panel.nearest_line_with(Axis::Rows, &[], 0.0).err(), refusal(Word::Short, 0));
    assert_eq!(panel.nearest_line(Axis::Rows, 0.0).err(), refusal(Word::Indefinite, 0));
}

#[test]
fn refusals() {
    assert_eq!(Panel::read(&vec![b'x'; 32_769]).err(), refusal(Word::Unread, 0));
    assert_eq!(Panel::read(b"axis\tc\t-\tmax\tlen\t00000000\naxis\tc\t-\tmax\tlen\t00000000\n").err(), refusal(Word::Twice, 2));
    assert_eq!(Panel::read(b"repeat\tc\tfill\n").err(), refusal(Word::Unread, 2));
    let mut panel = Panel::read(LAYOUT).unwrap();
    let before = panel.clone();
    assert_eq!(panel.enter(Axis::Rows, 1, b"").err(), refusal(Word::Name, 0));
    assert_eq!(panel.enter(Axis::Rows, 1, &[b'a'; 33]).err(), refusal(Word::Name, 0));
    assert_eq!(panel.enter(Axis::Rows, 0, b"a").err(), refusal(Word::Count, 0));
    assert_eq!(panel.enter(Axis::Rows, 20_001, b"a").err(), refusal(Word::Count, 0));
    assert_eq!(panel.placement(2).err(), refusal(Word::Count, 0));
    assert_eq!(panel.write_records(Axis::Rows, &[], 0, &mut [0; 3]).err(), refusal(Word::Short, 0));
    assert_eq!(panel.write_records(Axis::Rows, &[0; 25], 51, &mut [0; 3]).err(), refusal(Word::Count, 0));
    assert_eq!(panel.write_records(Axis::Rows, &[0; 25], 0, &mut [0; 2]).err(), refusal(Word::Short, 0));
    assert_eq!(panel.write_placements(2, &mut [0; PLACEMENT_RUN]).err(), refusal(Word::Count, 0));
    assert_eq!(panel.read_again(b"none").err(), refusal(Word::Unread, 1));
    assert_eq!(panel.state(), before.state());
    assert!(panel == before);
    assert_eq!(refusal(Word::ZeroLine, 0).unwrap().to_string(), "refused by 9 (zero line)");
    assert_eq!(refusal(Word::Late, 7).unwrap().to_string(), "refused by 7 (late) at line 7");
}

const AXIS: &str = "axis\tc\t-\tmax\tlen\t00000000\n";
const APART: &str = "area\ta\t1\t2\t1\t2\n";
const SHARING: &str = "area\tb\t3\t5\t3\t5\narea\tc\t4\t6\t4\t7\n";

/// Areas 2 and 3 share a cell: refused at line 4, before the fault of line 5.
#[test]
fn overlap() {
    let sheet = [AXIS, APART, SHARING, "none\n"].concat();
    let pair = Some(Pair { earlier: 2, later: 3 });
    let mut panel = Panel::read(LAYOUT).unwrap();
    let before = panel.clone();
    let refused = panel.read_again(sheet.as_bytes()).unwrap_err();
    assert_eq!(refused, Refusal { word: Word::Overlap, line: 4, pair });
    assert_eq!(format!("{refused}"), "refused by 12 (overlap) at line 4: areas 2 and 3");
    assert!(panel == before);
    assert_eq!(Display::read(sheet.as_bytes()).err(), refusal(Word::Unread, 5));
    let touching = "area\ta\t1\t2\t1\t2\narea\tb\t1\t2\t2\t3\narea\tc\t2\t3\t1\t3\n";
    assert!(Panel::read(touching.as_bytes()).is_ok());
}

/// Rows of unequal width, a name whose cells form no filled rectangle, and a picture with its counts.
#[test]
fn picture() {
    let mut panel = Panel::read(LAYOUT).unwrap();
    let before = panel.clone();
    let unequal = panel.read_again(b"row\ta\tb\nrow\ta\nrow\ta\tb\n").unwrap_err();
    assert_eq!(unequal, refusal(Word::Unequal, 2).unwrap());
    assert_eq!(format!("{unequal}"), "refused by 13 (unequal) at line 2");
    let broken = panel.read_again(b"row\ta\t.\ta\nrow\tb\tb\tb\nnone\n").unwrap_err();
    assert_eq!((broken.word, broken.number(), broken.line, broken.pair), (Word::Broken, 14, 2, None));
    assert!(panel == before);
    let panel = Panel::read(b"row\tb\tb\ta\t...\nrow\t.\t.\ta\t.\nrow\t.\t.\t.\t.\nplace\tr\tnamed\ta\t0\tnamed\ta\t0\n").unwrap();
    assert_eq!((panel.grid().areas, panel.size(Axis::Columns).explicit, panel.size(Axis::Rows).explicit), (2, 4, 3));
    assert_eq!((panel.placement(0).unwrap().start, panel.placement(0).unwrap().end), (End::Line(1), End::Line(3)));
    assert_eq!(Display::read(b"row\t.\t.\n").unwrap().size(Axis::Columns).explicit, 2);
}

/// What the sheet call accepts is displayed alike; areas that share cells are displayed with the first pair.
#[test]
fn display() {
    let (panel, shown) = (Panel::read(LAYOUT).unwrap(), Display::read(LAYOUT).unwrap());
    let answers: &Answers = &panel;
    assert!(*answers == *shown);
    assert_eq!((shown.overlap(), shown.grid()), (None, panel.grid()));
    let sheet = [AXIS, APART, SHARING, "area\td\t1\t6\t1\t6\nplace\tr\tnamed\tc\t0\tauto\t-\t0\n"].concat();
    let shown = Display::read(sheet.as_bytes()).unwrap();
    assert_eq!(shown.overlap(), Some(Pair { earlier: 2, later: 3 }));
    assert_eq!((shown.grid().areas, shown.size(Axis::Columns).explicit, shown.size(Axis::Rows).explicit), (4, 6, 5));
    assert_eq!(shown.placement(0).unwrap().start, End::Line(4));
}

/// A name of a line by the call itself, of stores of such lengths.
fn name_of(panel: &Panel, columnstore: &[u8], rowstore: &[u8], axis: u32) -> raw::NameAnswer {
    let (columns, rows) = ((columnstore.as_ptr(), columnstore.len()), (rowstore.as_ptr(), rowstore.len()));
    // SAFETY: an array of words and two stores, which are only read.
    unsafe { raw::palgwern_line_name(panel.grid(), &[0; PANEL_WORDS], columns.0, columns.1, rows.0, rows.1, axis, 1, 0) }
}

#[test]
fn short_stores() {
    let panel = Panel::read(LAYOUT).unwrap();
    let (full, less) = (vec![0; STORE_BYTES], vec![0; STORE_BYTES - 1]);
    for axis in 0..3 {
        let (short, enough) = if axis == 2 { (4, 4) } else { (10, 0) };
        let answered = |columns: &[u8], rows: &[u8], number| {
            assert_eq!(name_of(&panel, columns, rows, axis), raw::NameAnswer { number, offset: 0, length: 0 });
        };
        answered(&less, &full, short);
        answered(&full, &less, short);
        answered(&[], &[], short);
        answered(&full, &full, enough);
    }
}

#[test]
fn entries() {
    let mut panel = Panel::read(LAYOUT).unwrap();
    for line in 1..=ENTRIES as u32 - panel.grid().rows.entries {
        panel.enter(Axis::Rows, line, b"a").unwrap();
    }
    let before = panel.clone();
    assert_eq!(panel.enter(Axis::Rows, 1, b"a").err(), refusal(Word::Crowded, 0));
    assert!(panel == before);
    for _ in 0..1_023 {
        panel.enter(Axis::Columns, 1, &[b'b'; 32]).unwrap();
    }
    assert_eq!(panel.enter(Axis::Columns, 1, &[b'b'; 32]).err(), refusal(Word::Crowded, 0));
    assert!(panel.names(Axis::Columns, 1).eq(["x", &"b".repeat(32)]));
    assert!(panel.names(Axis::Rows, 1).eq(["rowname", "a"]));
    for axis in [Axis::Columns, Axis::Rows] {
        let one_by_one = (1..=panel.lists(axis)).flat_map(|line| panel.names(axis, line).map(move |name| (line, name)));
        assert!(panel.line_names(axis).eq(one_by_one));
    }
    assert!(panel.resolved().eq([panel.placement(0).unwrap(), panel.placement(1).unwrap()]));
    assert_eq!((panel.placement(0).unwrap().start, panel.placement(1).unwrap().end), (End::Line(5), End::Line(12)));
}

#[test]
fn marks() {
    let panel = Panel::read(b"place\tr\tline\t-\t10002\tspan\t-\t9\nplace\tc\tspan\t-\t7\tline\t-\t-10002\n").unwrap();
    let first = Placement { axis: Axis::Rows, cell: false, start: End::Line(10002), end: End::Span(9), startheld: true, endheld: false };
    let second = Placement { axis: Axis::Columns, cell: false, start: End::Span(7), end: End::Line(-10002), startheld: false, endheld: true };
    assert!(panel.resolved().eq([first, second]));
    assert_eq!((panel.placement(0), panel.placement(1)), (Ok(first), Ok(second)));
}

/// Lines of the columns at 0, 12, 27, 52, 87 and 94: a negative track of 7, then 10, 20 and 30, and a positive one of 7, with gaps of 5.
const POSITIONS: &[u8] = b"axis\tc\t-\tmax\tlen\t40a00000\ntrack\tc\tlen\t41200000\tlen\t41200000\n\
track\tc\tlen\t41a00000\tlen\t41a00000\ntrack\tc\tlen\t41f00000\tlen\t41f00000\nspare\tc\tlen\t40e00000\tlen\t40e00000\nextra\tc\t1\t1\n\
place\tc\tline\t-\t1\tline\t-\t3\nplace\tr\tline\t-\t1\tline\t-\t2\nplace\tc\tline\t-\t3\tline\t-\t1\nplace\tc\tline\t-\t2\tline\t-\t2\n\
place\tc\tline\t-\t0\tline\t-\t2\nplace\tc\tline\t-\t-5\tline\t-\t-1\nplace\tc\tline\t-\t5\tline\t-\t5\nplace\tc\tline\t-\t1\tline\t-\t32767\n";

#[test]
fn lists() {
    let panel = Panel::read(POSITIONS).unwrap();
    let within = |axis, low, high| panel.within(axis, low, high).map(|list| list.collect::<Vec<u32>>());
    let around = |axis, line| panel.around(axis, line).map(|list| list.collect::<Vec<u32>>());
    assert_eq!(within(Axis::Columns, 12.0, 52.0), Ok(vec![0, 2, 3]));
    assert_eq!(within(Axis::Columns, 12.5, 52.0), Ok(vec![3]));
    assert_eq!(within(Axis::Columns, 0.0, 65_535.0), Ok(vec![0, 2, 3, 5]));
    assert_eq!((within(Axis::Columns, 52.0, 12.0), within(Axis::Rows, 0.0, 9.0)), (Ok(vec![]), Ok(vec![])));
    assert_eq!((around(Axis::Columns, 2), around(Axis::Columns, -3)), (Ok(vec![0, 2, 5]), Ok(vec![0, 2, 5])));
    assert_eq!((around(Axis::Columns, 1), around(Axis::Columns, i16::MAX)), (Ok(vec![5]), Ok(vec![])));
    assert_eq!(within(Axis::Columns, 0.0, f32::NAN).err(), refusal(Word::Value, 0));
    assert_eq!(around(Axis::Columns, 0).err(), refusal(Word::ZeroLine, 0));
    let other = Panel::read(LAYOUT).unwrap();
    assert_eq!(other.within(Axis::Columns, 0.0, 1.0).err(), refusal(Word::Indefinite, 0));
    assert_eq!(other.around(Axis::Rows, 1).err(), refusal(Word::Indefinite, 0));
}

#[test]
fn cells() {
    let panel = Panel::read(POSITIONS).unwrap();
    assert_eq!((panel.place_cells(Packing::Sparse), panel.place_cells(Packing::Dense)), (Ok(vec![]), Ok(vec![])));
    assert_eq!(Land::of(0x2711_0003_0002_0001), Land { columns: [1, 2], rows: [3, 10_001] });
}

/// A trial is what entering the name on a copy gives; the panel stays, and what lies past the answer, on a refusal all, is not written.
fn as_entered(panel: &Panel, axis: Axis, line: u32, name: &[u8], packing: Packing) -> Result<Tried, Refusal> {
    let (before, mut copy) = (panel.clone(), panel.clone());
    let (mut numbers, mut lands) = ([7; PLACEMENT_RUN], [7; CELLS]);
    let tried = panel.try_name(axis, line, name, packing);
    let written = panel.write_trial(axis, line, name, packing, &mut numbers, &mut lands);
    assert!(*panel == before);
    let (placements, cells) = written.unwrap_or((0, 0));
    assert!(numbers[PLACEMENT_NUMBERS * placements..].iter().all(|&number| number == 7) && lands[cells..].iter().all(|&land| land == 7));
    let entered = copy.enter(axis, line, name).and_then(|()| copy.place_cells(packing));
    assert_eq!(tried, entered.map(|lands| Tried { placements: copy.resolved().collect(), lands }));
    assert_eq!(written.err(), tried.as_ref().err().copied());
    tried
}

/// A name moves a placement between two lines of it, an edge of the area and the cells; without the name the last cell lies below.
const TRIED: &[u8] = b"area\ta\t1\t2\t2\t4\nname\tc\tx\ntrack\tc\tauto\t00000000\tauto\t00000000\n\
track\tc\tauto\t00000000\tauto\t00000000\ntrack\tc\tauto\t00000000\tauto\t00000000\n\
place\tc\tnamed\tx\t1\tnamed\tx\t2\nplace\tr\tnamed\ta\t0\tnamed\ta\t0\n\
cell\tnamed\tx\t1\tnamed\tx\t-1\tauto\t-\t0\tauto\t-\t0\ncell\tnamed\tx\t-1\tauto\t-\t0\tauto\t-\t0\tauto\t-\t0\n\
place\tc\tnamed\ta\t0\tnamed\ta\t0\n";

#[test]
fn trials() {
    let panel = Panel::read(TRIED).unwrap();
    let ends = |tried: &Tried, index: usize| (tried.placements[index].start, tried.placements[index].end);
    let between = |start, end| (End::Line(start), End::Line(end));
    let land = |columns, row| Land { columns, rows: [row, row + 1] };
    assert_eq!((panel.placement(0).unwrap().end, panel.place_cells(Packing::Sparse)), (End::Line(5), Ok(vec![land([1, 2], 1), land([1, 2], 2)])));
    let third = as_entered(&panel, Axis::Columns, 3, b"x", Packing::Sparse).unwrap();
    assert_eq!((ends(&third, 0), ends(&third, 6)), (between(1, 3), between(2, 4)));
    assert_eq!(third.lands, [land([1, 3], 1), land([3, 4], 1)]);
    let edge = as_entered(&panel, Axis::Columns, 1, b"a-start", Packing::Dense).unwrap();
    assert_eq!(ends(&edge, 6), between(1, 4));
    let row = as_entered(&panel, Axis::Rows, 1, b"a-end", Packing::Sparse).unwrap();
    assert_eq!((ends(&row, 1), ends(&row, 6)), (between(1, 1), between(2, 4)));
    assert_eq!(as_entered(&Panel::empty(), Axis::Rows, 1, b"x", Packing::Dense), Ok(Tried { placements: vec![], lands: vec![] }));
}

#[test]
fn refused_trials() {
    let mut panel = Panel::read(TRIED).unwrap();
    let refused = |panel: &Panel, line, name: &[u8]| as_entered(panel, Axis::Columns, line, name, Packing::Dense).err();
    assert_eq!((refused(&panel, 1, b""), refused(&panel, 0, b"no name")), (refusal(Word::Name, 0), refusal(Word::Name, 0)));
    assert_eq!((refused(&panel, 0, b"x"), refused(&panel, 20_001, b"x")), (refusal(Word::Count, 0), refusal(Word::Count, 0)));
    assert_eq!(refused(&panel, 4, b"x"), refusal(Word::Unplaced, 9));
    for line in 1..ENTRIES as u32 {
        panel.enter(Axis::Columns, line, b"y").unwrap();
    }
    assert_eq!(refused(&panel, 4, b"x"), refusal(Word::Crowded, 0));
    assert!(as_entered(&panel, Axis::Rows, 4, b"x", Packing::Sparse).is_ok());
}

/// x on line 1 of one column, and a placement on the second line of x, which is counted on past the end.
const SECOND_X: &str = "name\tc\tx\ntrack\tc\tauto\t00000000\tauto\t00000000\nplace\tc\tnamed\tx\t2\tauto\t-\t0\n";

/// A call that is refused leaves the panel, its step and the lines.
fn refused_call(panel: &mut Recorded, call: impl Fn(&mut Recorded) -> Result<(), Refusal>) -> Option<Refusal> {
    let before = panel.clone();
    let refused = call(panel).err();
    assert!(*panel == before && refused.is_some());
    refused
}

#[test]
fn histories() {
    let mut panel = Recorded::read(SECOND_X, 100).unwrap();
    let start = |panel: &Recorded| panel.placement(0).unwrap().start;
    assert_eq!((panel.step(), panel.steps(), start(&panel)), (0, 0, End::Line(3)));
    panel.edit("enter\tc\t2\tx").unwrap();
    panel.edit_name(Axis::Rows, 1, "y").unwrap();
    panel.edit("area\ta\t1\t2\t1\t4").unwrap();
    assert_eq!((panel.step(), panel.steps(), start(&panel), panel.size(Axis::Columns).explicit), (3, 3, End::Line(2), 3));
    let lines = b"1\tenter\tc\t2\tx\n2\tenter\tr\t1\ty\n3\tarea\ta\t1\t2\t1\t4\n";
    assert!(panel.lines().starts_with(lines) && panel.lines()[lines.len()..].iter().all(|&byte| byte == 0));
    let last = panel.clone();
    panel.recall(0).unwrap();
    assert_eq!((panel.step(), panel.steps(), panel.grid()), (0, 3, Panel::read(SECOND_X).unwrap().grid()));
    panel.recall(3).unwrap();
    assert!(panel == last);
    panel.recall(1).unwrap();
    panel.edit("place\tr\tline\t-\t1\tauto\t-\t0").unwrap();
    assert_eq!((panel.step(), panel.steps(), panel.placements(), panel.size(Axis::Columns).explicit), (2, 2, 2, 1));
    assert_eq!(format!("{panel:?}").matches("Recorded").count(), 1);
}

#[test]
fn refused_by_histories() {
    let mut panel = Recorded::read(format!("area\tb\t1\t2\t1\t3\n{SECOND_X}"), 20).unwrap();
    panel.edit("enter\tc\t2\tx").unwrap();
    for (text, word) in [
        ("nothing", Word::Unread), ("cell", Word::Unread), ("enter\tc\t1\t", Word::Name), ("track\tc\tlen\t80000000\tauto\t00000000", Word::Value),
        ("enter\tc\t0\tx", Word::Count), ("area\ta\t2\t1\t1\t2", Word::Area), ("area\tb\t2\t3\t1\t2", Word::Twice), ("enter\tc\t1\tx", Word::HistoryFull),
    ] {
        assert_eq!(refused_call(&mut panel, |panel| panel.edit(text)), refusal(word, 0), "{text}");
    }
    let shared = refused_call(&mut panel, |panel| panel.edit("area\ta\t1\t2\t2\t9")).unwrap();
    assert_eq!((shared.word, shared.pair), (Word::Overlap, Some(Pair { earlier: 1, later: 2 })));
    assert_eq!(refused_call(&mut panel, |panel| panel.edit_name(Axis::Rows, 0, "x")), refusal(Word::Count, 0));
    assert_eq!(refused_call(&mut panel, |panel| panel.edit_name(Axis::Rows, 1, "x y")), refusal(Word::Name, 0));
    assert_eq!(refused_call(&mut panel, |panel| panel.edit_name(Axis::Rows, 1, "x")), refusal(Word::HistoryFull, 0));
    assert_eq!(refused_call(&mut panel, |panel| panel.recall(2)), refusal(Word::NoStep, 0));
    assert_eq!(Recorded::read("nothing\n", 20).err(), refusal(Word::Unread, 1));
    panel.recall(0).unwrap();
    panel.edit_name(Axis::Rows, 1, "x").unwrap();
}

/// `place` lines, and the placements with the same ends.
const GIVEN: [(&str, Given); 4] = [
    ("place\tc\tnamed\tx\t-1\tspan\t-\t2\n", Given { axis: Axis::Columns, start: GivenEnd::Named(b"x", -1), end: GivenEnd::Span(2) }),
    ("place\tr\tline\t-\t-32768\tnamed\ta\t0\n", Given { axis: Axis::Rows, start: GivenEnd::Line(-32_768), end: GivenEnd::Named(b"a", 0) }),
    ("place\tc\tnspan\ta-start\t2\tline\t-\t3\n", Given { axis: Axis::Columns, start: GivenEnd::NamedSpan(b"a-start", 2), end: GivenEnd::Line(3) }),
    ("place\tr\tauto\t-\t0\tspan\t-\t65535\n", Given { axis: Axis::Rows, start: GivenEnd::Auto, end: GivenEnd::Span(65_535) }),
];

/// Each gets what the last line of the sheet gets, by itself and among the others; the panel stays.
#[test]
fn given_placements() {
    let panel = Panel::read(TRIED).unwrap();
    let before = panel.clone();
    let placements = panel.resolve_given(&GIVEN.map(|(_, given)| given)).unwrap();
    assert_eq!((placements.len(), panel.resolve_given(&[])), (GIVEN.len(), Ok(vec![])));
    for ((line, given), placement) in GIVEN.into_iter().zip(placements) {
        let held = Panel::read([TRIED, line.as_bytes()].concat()).unwrap();
        assert_eq!(held.placement(held.placements() - 1), Ok(placement));
        assert_eq!(panel.resolve_given(&[given]), Ok(vec![placement]));
    }
    assert!(panel == before);
}

#[test]
fn refused_given() {
    let panel = Panel::read(TRIED).unwrap();
    let free = Given { axis: Axis::Rows, start: GivenEnd::Auto, end: GivenEnd::Span(1) };
    let named = |name| Given { start: GivenEnd::Named(name, 1), ..free };
    let refused = |given: &[Given]| {
        let mut numbers = [7; PLACEMENT_RUN];
        let refusal = panel.write_given(given, &mut numbers).err();
        assert!(refusal.is_none() || numbers.iter().all(|&number| number == 7));
        refusal
    };
    assert_eq!(refused(&[free, named(b""), named(b"x")]), Some(GivenRefusal { word: Word::Name, index: 1 }));
    assert_eq!(refused(&[named(b"no name")]), Some(GivenRefusal { word: Word::Name, index: 0 }));
    assert_eq!(refused(&[free; 257]), Some(GivenRefusal { word: Word::Crowded, index: 0 }));
    assert_eq!(panel.resolve_given(&[named(b"x"); 256]).map(|placements| placements.len()), Ok(256));
    assert_eq!(refused(&[named(b"\x7f")]).unwrap().to_string(), "placement 0 refused by 2 (name)");
}

#[test]
fn implicit_tracks() {
    let panel = Panel::read(TRIED).unwrap();
    let extended = Panel::read([TRIED, b"extra\tc\t2\t10000\n"].concat()).unwrap();
    assert!(panel.with_implicit(Axis::Columns, 2, 10_000).unwrap() == *extended);
    assert_eq!(panel.with_implicit(Axis::Rows, 0, 10_001).err(), refusal(Word::Count, 0));
}

/// A sheet of columns with a fill of one track, `kind` its kind and `bits` those of its size.
fn filled(axis: &str, kind: &str, bits: &str) -> String {
    format!("axis\tc\t{axis}\nrepeat\tc\tfill\ntrack\tc\t{kind}\t{bits}\t{kind}\t{bits}\nend\tc\n")
}

#[test]
fn resizes() {
    let resize = |sheet: &str| Panel::read(sheet.as_bytes()).unwrap().least_resize(Axis::Columns);
    let at = |size: &str| format!("{size}\tmax\tlen\t00000000");
    assert_eq!(resize(&filled(&at("41200000"), "len", "3f800000")), Ok(Some(11)));
    assert_eq!(resize(&filled(&at("41200000"), "len", "40400000")), Ok(Some(12)));
    assert_eq!(resize(&filled(&at("41a00000"), "len", "41200000")), Ok(Some(19)));
    assert_eq!(resize(&filled(&at("42c80000"), "len", "46ffff00")), Ok(Some(65535)));
    assert_eq!(resize(&filled(&at("41000000"), "pct", "3e4ccccd")), Ok(Some(9)));
    let once = filled(&at("42c80000"), "len", "477fff00") + "track\tc\tlen\t3f800000\tlen\t3f800000\n";
    assert_eq!(resize(&once), Ok(None));
    let none = filled(&at("41200000"), "len", "3f800000") + "repeat\tc\t0\ntrack\tc\tlen\t3f800000\tlen\t3f800000\nend\tc\n";
    let broken = filled(&at("41280000"), "len", "3f800000");
    let unsized_axis = filled(&at("-"), "len", "3f800000");
    let percent = filled("41200000\tmax\tpct\t3c23d70a", "len", "3f800000");
    for sheet in [none, broken, unsized_axis, percent, String::new()] {
        assert_eq!(resize(&sheet).err(), refusal(Word::Value, 0));
    }
    let panel = Panel::read(LAYOUT).unwrap();
    // SAFETY: the words are an initialized array; nothing is written.
    let answer = unsafe { raw::palgwern_least_resize(panel.grid(), &[0; PANEL_WORDS], 2) };
    assert_eq!(answer, raw::ResizeAnswer { number: 4, found: 0, size: 0 });
}

/// Area a is drawn from column line 2 on, and line 1 bears a-start too; b is made by names alone, c has an end alone.
#[test]
fn areas() {
    let sheet = b"area\ta\t1\t2\t2\t3\nname\tc\ta-start\nname\tc\tb-start\ntrack\tc\tauto\t00000000\tauto\t00000000\n\
        track\tc\tauto\t00000000\tauto\t00000000\nname\tc\tb-end\nname\tc\tc-end\n";
    let panel = Panel::read(sheet).unwrap();
    let made = |axis, name: &[u8]| panel.named_area(axis, name).map(|edges| (edges.start, edges.end));
    assert_eq!((panel.drawn_area(Axis::Columns, b"a"), panel.drawn_area(Axis::Rows, b"a")), (Ok(Some((2, 3))), Ok(Some((1, 2)))));
    assert_eq!((panel.drawn_area(Axis::Columns, b"b"), made(Axis::Columns, b"b")), (Ok(None), Ok((Some(1), Some(3)))));
    assert_eq!((made(Axis::Columns, b"a"), made(Axis::Rows, b"a")), (Ok((Some(1), Some(3))), Ok((Some(1), Some(2)))));
    assert_eq!((made(Axis::Columns, b"c"), made(Axis::Rows, b"b")), (Ok((None, Some(3))), Ok((None, None))));
    for name in [&b""[..], &[b'a'; 33], b"a b"] {
        assert_eq!(panel.drawn_area(Axis::Rows, name).err(), refusal(Word::Name, 0));
        assert_eq!(panel.named_area(Axis::Rows, name).err(), refusal(Word::Name, 0));
    }
    let shown = Display::read(b"row\t.\tp\tp\nrow\t.\tp\tp\nrow\t.\t.\t.\n").unwrap();
    assert_eq!((shown.drawn_area(Axis::Columns, b"p"), shown.drawn_area(Axis::Rows, b"p")), (Ok(Some((2, 4))), Ok(Some((1, 3)))));
}

/// A fill of 100 with gaps of 10 and an area of five tracks, at other inner sizes; at its own it is the size of the panel.
#[test]
fn sizes() {
    let sheet = filled("42c60000\tmax\tlen\t41200000", "len", "42c80000").replace("repeat", "area\ta\t1\t2\t1\t6\nrepeat");
    let panel = Panel::read(sheet.as_bytes()).unwrap();
    let before = panel.clone();
    let at = |inner| panel.size_at(Axis::Columns, inner).map(|size| (size.repetitions, size.explicit));
    assert_eq!((at(320.0), at(319.0), at(99.0), at(0.0)), (Ok((3, 5)), Ok((2, 5)), Ok((1, 5)), Ok((1, 5))));
    assert_eq!((at(1_000.0), at(65_535.0)), (Ok((9, 9)), Ok((595, 595))));
    for inner in [-0.0, -1.0, 65_535.5, f32::NAN, f32::INFINITY] {
        assert_eq!(at(inner).err(), refusal(Word::Value, 0));
    }
    assert_eq!(panel.size_at(Axis::Columns, 99.0), Ok(panel.size(Axis::Columns)));
    assert_eq!(panel.size_at(Axis::Rows, 99.0), Ok(AxisSize { repetitions: 0, explicit: 1 }));
    let three = filled("-\tmax\tlen\t00000000", "len", "3f800000").replace("end", "track\tc\tlen\t3f800000\tlen\t3f800000\ntrack\tc\tlen\t3f800000\tlen\t3f800000\nend");
    let three = Panel::read(three.as_bytes()).unwrap();
    assert_eq!(three.size_at(Axis::Columns, 10_001.0), Ok(AxisSize { repetitions: 3_333, explicit: 9_999 }));
    assert_eq!(three.size_at(Axis::Columns, 10_002.0).err(), refusal(Word::Count, 0));
    assert!(panel == before);
}

/// The size at another inner size is that of the sheet with it, in pixels and in halves of them.
#[test]
fn resized_sheets() {
    let panel = Panel::read(LAYOUT).unwrap();
    let sheet = std::str::from_utf8(LAYOUT).unwrap();
    for half in 0..4_000u16 {
        let inner = f32::from(half) / 2.0;
        let resized = sheet.replacen("axis\tc\t44070000", &format!("axis\tc\t{:08x}", inner.to_bits()), 1);
        assert_eq!(panel.size_at(Axis::Columns, inner), Panel::read(resized.as_bytes()).map(|read| read.size(Axis::Columns)));
    }
}

/// The last line, a line before the first, lines that are held, and there and back; refused are line 0, counts and lines of no range.
/// The panel of a sheet with three entries, refused ones left out.
fn read_and_enter(sheet: &str) -> Result<Panel, Refusal> {
    let mut panel = Panel::read(sheet)?;
    for (axis, line, name) in [(Axis::Columns, 7, "z"), (Axis::Rows, 1, "x"), (Axis::Columns, 0, "z"), (Axis::Columns, 1, "x")] {
        assert_eq!(panel.enter(axis, line, name).is_err(), line == 0);
    }
    Ok(panel)
}

/// A resize leaves the panel of the sheet with that inner size and the same entries, also after others.
#[test]
fn resized_panels() {
    let sheet = std::str::from_utf8(LAYOUT).unwrap();
    let mut panel = read_and_enter(sheet).unwrap();
    for half in (0..4_000u16).rev().step_by(13) {
        let inner = f32::from(half) / 2.0;
        let read = read_and_enter(&sheet.replacen("axis\tc\t44070000", &format!("axis\tc\t{:08x}", inner.to_bits()), 1));
        assert_eq!(panel.resize(Axis::Columns, inner).map_err(|refusal| refusal.word), read.as_ref().map(|_| ()).map_err(|refusal| refusal.word));
        assert!(read.is_err() || panel == read.unwrap());
    }
}

/// Columns of 1 with a name each: 8 comes at 4,097 entries, those that were entered counted. Without names, one beside a fill: 4 comes at
/// 10,001 columns. On a refusal the panel stays.
#[test]
fn refused_resizes() {
    let sheet = filled("41200000\tmax\tlen\t00000000", "len", "3f800000").replace("track", "name\tc\tx\ntrack");
    let mut panel = read_and_enter(&sheet).unwrap();
    let before = panel.clone();
    for inner in [-0.0, -1.0, 65_535.5, f32::NAN, f32::INFINITY] {
        assert_eq!(panel.resize(Axis::Rows, inner).err(), refusal(Word::Value, 0));
    }
    assert_eq!(panel.resize(Axis::Columns, 4_095.0).err(), refusal(Word::Crowded, 0));
    assert!(panel == before);
    let mut beside = Panel::read(filled("41200000\tmax\tlen\t00000000", "len", "3f800000") + "track\tc\tlen\t3f800000\tlen\t3f800000\n").unwrap();
    assert_eq!(beside.resize(Axis::Columns, 10_001.0).err(), refusal(Word::Count, 0));
    assert_eq!((panel.resize(Axis::Columns, 4_094.0), panel.size(Axis::Columns).repetitions), (Ok(()), 4_094));
    assert_eq!(panel.resize(Axis::Columns, 10.0), Ok(()));
    assert!(panel == before);
}

#[test]
fn conversions() {
    let line = |line, held| Ok(OriginZeroLine { line, held });
    assert_eq!((into_origin_zero_line(-1, 3), into_origin_zero_line(-5, 3)), (line(3, false), line(-1, false)));
    assert_eq!((into_origin_zero_line(32_767, 3), into_origin_zero_line(10_001, 3)), (line(10_000, true), line(10_000, false)));
    assert_eq!((into_grid_line(-1, 3), into_grid_line(10_000, 3), into_grid_line(-10_000, 10_000)), (Ok(-5), Ok(10_001), Ok(-20_001)));
    for (number, tracks, word) in [(0, 3, Word::ZeroLine), (0, 10_001, Word::Count), (1, 65_537, Word::Count), (32_768, 3, Word::Count)] {
        assert_eq!(into_origin_zero_line(number, tracks).err(), refusal(word, 0));
    }
    for (number, tracks) in [(10_001, 3), (-10_001, 3), (0, 10_001), (65_536, 3)] {
        assert_eq!(into_grid_line(number, tracks).err(), refusal(Word::Count, 0));
    }
    let counts = TrackCounts { negative: 2, explicit: 3, positive: 4 };
    assert_eq!((counts.next_track(-3), counts.next_track(0), counts.previous_line(0)), (Ok(-1), Ok(2), Ok(-2)));
    assert_eq!((counts.line_record(7), counts.line_record(8), counts.line_record(-3)), (Ok(Some(18)), Ok(None), Ok(None)));
    assert_eq!((counts.next_track(10_001).err(), counts.line_record(-10_001).err()), (refusal(Word::Count, 0), refusal(Word::Count, 0)));
    assert_eq!((counts.previous_line(30_000), counts.previous_line(30_001).err()), (Ok(29_998), refusal(Word::Count, 0)));
    for many in [TrackCounts { negative: 10_001, ..counts }, TrackCounts { explicit: 10_001, ..counts }, TrackCounts { positive: 65_536, ..counts }] {
        assert_eq!((many.next_track(0).err(), many.previous_line(0).err()), (refusal(Word::Count, 0), refusal(Word::Count, 0)));
        assert_eq!(many.line_record(0).err(), refusal(Word::Count, 0));
    }
    let panel = Panel::read(LAYOUT).unwrap();
    let columns = panel.track_counts(Axis::Columns);
    assert_eq!(columns, TrackCounts { negative: 7, explicit: 20, positive: 8 });
    assert_eq!((columns.line_record(28), columns.line_record(29)), (Ok(Some(70)), Ok(None)));
    assert_eq!(panel.track_counts(Axis::Rows), TrackCounts { negative: 6, explicit: 9, positive: 10 });
}

#[test]
fn layout_number() {
    assert_eq!(layout(), palgwern::LAYOUT);
}

#[test]
fn empty_sheet() {
    let panel = Panel::read(b"").unwrap();
    assert_eq!(panel.state(), Panel::empty().state());
    assert_eq!((panel.lists(Axis::Rows), panel.placements(), panel.record_count(Axis::Rows)), (0, 0, 1));
    assert_eq!((panel.line_names(Axis::Rows).len(), panel.resolved().len()), (0, 0));
}

/// Numbers, and none of the words and bytes.
#[test]
fn shown() {
    let panel = Panel::read(LAYOUT).unwrap();
    let answers = format!("Answers {{ grid: {:?}, .. }}", panel.grid());
    assert_eq!(format!("{panel:?}"), format!("Panel {{ answers: {answers}, room: {:?} }}", panel.state().room));
    assert_eq!(format!("{:?}", Display::read(LAYOUT).unwrap()), format!("Display {{ answers: {answers}, pair: None }}"));
}

#[test]
fn in_a_small_thread() {
    let run = || Panel::read(LAYOUT).unwrap().try_name(Axis::Columns, 1, "a", Packing::Sparse).unwrap().placements[0].start;
    let thread = std::thread::Builder::new().stack_size(512 * 1024).spawn(run).unwrap();
    assert_eq!(thread.join().unwrap(), End::Line(5));
}
