//! `page`: well formed, by itself, and with the machine's figures.

use crate::counting::with_a_rare_part;
use crate::folder::{assert_has, Folder, BRIDGE, PUMPS};
use crate::markup::{document, Element};
use nahokipe_testing::making::{largest_record, random_plain};
use nahokipe_testing::naive_figures::figures;
use nahokipe_testing::naive_records::{named, record_bytes, table_of_record, Plain};
use nahokipe_testing::seeded::Seeded;

/// The page of a record, read strictly.
fn page_of(bytes: &[u8]) -> (String, Element) {
    let folder = Folder::with("record", bytes);
    let text = folder.run(&["page", "record"]).done();
    let page = document(&text);
    (text, page)
}

/// The section under a heading.
fn section<'a>(page: &'a Element, heading: &str) -> &'a Element {
    let sections = page.all("section");
    let is_it = |section: &&&Element| section.all("h2")[0].text() == heading;
    sections
        .iter()
        .find(is_it)
        .unwrap_or_else(|| panic!("no section {heading}"))
}

/// The rows of a section's table, without its headings.
fn rows(section: &Element) -> Vec<Vec<String>> {
    let bodies = section.all("tbody");
    let row = |row: &Element| row.elements().map(Element::text).collect();
    bodies[0].elements().map(row).collect()
}

/// Nothing of a page is loaded from elsewhere, and nothing in it is run.
fn stands_by_itself(text: &str) {
    let outside = [
        "http",
        "src=",
        "href",
        "url(",
        "@import",
        "<script",
        "<link",
        "<iframe",
        "<img",
        "onload",
        "javascript",
    ];
    for word in outside {
        assert!(!text.to_lowercase().contains(word), "{word} in the page");
    }
}

/// The bars of a chart: as long as the counts are beside the largest, with the counts in words.
fn bars_match(section: &Element, counts: &[u64]) {
    let charts = section.all("svg");
    assert_eq!(charts.len(), 1);
    let label = charts[0].attribute("aria-label").expect("a label");
    assert_eq!(
        (charts[0].attribute("role"), label),
        (Some("img"), charts[0].all("title")[0].text().as_str())
    );
    let bars = charts[0].all("rect");
    assert_eq!(bars.len(), counts.len());
    let most = *counts.iter().max().expect("a count") as f64;
    let length = |bar: &Element| {
        bar.attribute("width")
            .expect("a width")
            .parse::<f64>()
            .expect("a number")
    };
    let longest = bars.iter().map(|bar| length(bar)).fold(0.0, f64::max);
    assert!(longest > 100.0);
    for (bar, &count) in bars.iter().zip(counts) {
        let expected = count as f64 / most * longest;
        assert!((length(bar) - expected).abs() < 0.006, "{count}: {bar:?}");
        assert_has(&bar.text(), &[&format!(": {count} of ")]);
    }
}

/// A page has the machine's figures, parts, sets and bytes.
fn page_matches(plain: &Plain) {
    let bytes = record_bytes(plain);
    let (text, page) = page_of(&bytes);
    stands_by_itself(&text);
    figures_match(&page, plain, &bytes);
    assert_eq!(column(&page, "Parts", 0), words(&plain.numbers));
    assert_eq!(shown_sets(&page), sets_of(plain));
    let shown = section(&page, "The record").all("pre")[0].text();
    let shown = shown.split_whitespace();
    let shown = shown.map(|byte| u8::from_str_radix(byte, 16));
    assert!(shown.eq(bytes.iter().copied().map(Ok)));
    let mark = format!("The mark is {}", plain.mark);
    assert_has(&page.text(), &[&mark, &format!("{} bytes", bytes.len())]);
}

/// The tables and charts of a page have the figures that the definitions give.
fn figures_match(page: &Element, plain: &Plain, bytes: &[u8]) {
    let n = plain.numbers.len();
    let table = table_of_record(bytes).expect("an accepted record");
    let figures = figures(n, &table).expect("figures");
    let counts =
        |cells: &[i64]| -> Vec<u64> { cells.iter().map(|cell| cell.unsigned_abs()).collect() };
    let signature = counts(&figures.signature);
    bars_match(section(page, "Signature"), &signature);
    assert_eq!(column(page, "Signature", 1), words(&signature));
    let importance = section(page, "Importance of the parts");
    bars_match(importance, &figures.importance);
    assert_eq!(
        column(page, "Importance of the parts", 0),
        words(&plain.numbers)
    );
    assert_eq!(
        column(page, "Importance of the parts", 1),
        words(&figures.importance)
    );
    assert_eq!(column(page, "Tail", 1), words(&counts(&figures.tail)));
    assert_eq!(
        column(page, "Path counts", 1),
        words(&counts(&figures.counts))
    );
    assert_eq!(
        column(page, "Domination", 1),
        words(&figures.domination[1..])
    );
}

/// A column of a section's table, by its index.
fn column(page: &Element, heading: &str, index: usize) -> Vec<String> {
    let rows = rows(section(page, heading)).into_iter();
    rows.map(|mut row| row.swap_remove(index)).collect()
}

fn words(numbers: &[impl ToString]) -> Vec<String> {
    numbers.iter().map(|number| number.to_string()).collect()
}

/// The sets on a page, however many there are.
fn shown_sets(page: &Element) -> Vec<String> {
    let section = section(page, "Sets");
    match section.all("details").first() {
        Some(folded) => {
            let text = folded.all("p")[0].text();
            text.split(",\n").map(String::from).collect()
        }
        None => section.all("li").iter().map(|set| set.text()).collect(),
    }
}

fn sets_of(plain: &Plain) -> Vec<String> {
    let set = |&set: &u16| {
        let numbers: Vec<String> = named(&plain.numbers, set)
            .iter()
            .map(u64::to_string)
            .collect();
        numbers.join(" ")
    };
    plain.sets.iter().map(set).collect()
}

#[test]
fn pages_of_random_machines() {
    let mut seeded = Seeded::new(760);
    let mut most = 0;
    for n in 1..=16 {
        for _ in 0..2 {
            let plain = random_plain(&mut seeded, n);
            most = most.max(plain.sets.len());
            page_matches(&plain);
        }
    }
    assert!(most > 100);
}

#[test]
fn the_page_of_the_largest_machine() {
    let (text, page) = page_of(&largest_record());
    stands_by_itself(&text);
    assert_eq!(shown_sets(&page).len(), 12_870);
    let signature = section(&page, "Signature");
    let bars: Vec<&str> = signature
        .all("rect")
        .iter()
        .filter_map(|bar| bar.attribute("width"))
        .collect();
    assert_eq!(bars.iter().filter(|&&width| width == "0.00").count(), 15);
    assert_has(&page.text(), &["no number is left for another part"]);
}

/// A count that rounding would make 0, in the table and behind its bar.
#[test]
fn per_cent_next_to_0() {
    let (_, page) = page_of(&record_bytes(&with_a_rare_part()));
    let heading = "Importance of the parts";
    assert_eq!(column(&page, heading, 3)[15], "<0.01");
    let drawn = section(&page, heading).all("text");
    assert_eq!(drawn.last().map(|text| text.text()), Some("<0.01 %".into()));
}

#[test]
fn the_page_of_the_bridge() {
    let (_, page) = page_of(&BRIDGE);
    assert_eq!(
        (page.name.as_str(), page.attribute("lang")),
        ("html", Some("en"))
    );
    assert_eq!(page.all("title")[0].text(), "record");
    let polynomial = section(&page, "Domination").all("p")[1].text();
    assert_eq!(polynomial, "2x2 + 2x3 - 5x4 + 2x5");
    let text = page.text();
    assert_has(
        &text,
        &[
            "Part numbers in use: 1 2 3 4 5.",
            "5! = 120 orders",
            "gets number 6",
        ],
    );
    for table in page.all("table") {
        assert!(table
            .all("th")
            .iter()
            .all(|cell| cell.attribute("scope").is_some()));
    }
    let sections = page.all("section");
    assert!(sections.iter().all(|section| section
        .elements()
        .nth(1)
        .is_some_and(|second| second.name == "p")));
}

/// Names and file names that look like markup stay text.
#[test]
fn names_that_look_like_markup() {
    let folder = Folder::with("<b>&\"amp;'.record", PUMPS);
    let name = "<script>alert(\"&amp;\")</script>";
    folder.write("names", format!("3 {name}\n7 a < b & c > d\n"));
    let text = folder
        .run(&["page", "<b>&\"amp;'.record", "--names", "names"])
        .done();
    let page = document(&text);
    assert_eq!(page.all("h1")[0].text(), "<b>&\"amp;'.record");
    assert!(page.all("script").is_empty() && page.all("b").is_empty());
    let parts = rows(section(&page, "Parts"));
    assert_eq!(parts[0][0], format!("3 {name}"));
    assert_eq!(parts[1][0], "7 a < b & c > d");
    assert_eq!(parts[2][0], "12");
    let sets = section(&page, "Sets").all("li");
    assert_has(&sets[0].text(), &["3 7 ", "a < b & c > d"]);
    let bar = section(&page, "Importance of the parts").all("rect")[1].text();
    assert_eq!(bar, "part 7 a < b & c > d: 1 of 6 orders");
}

/// Into a file, with a word on standard output, and from standard input.
#[test]
fn pages_into_files() {
    let folder = Folder::with("record", PUMPS);
    let text = folder.run(&["page", "record"]).done();
    let printed = folder.run(&["page", "record", "-o", "page.html"]).done();
    assert_eq!(printed, "page written to page.html\n");
    assert_eq!(folder.read("page.html"), text.as_bytes());
    assert_eq!(folder.run(&["page", "record", "-o", "-"]).done(), text);
    let other = folder.run_with(&["page", "-"], "record").done();
    assert_eq!(document(&other).all("h1")[0].text(), "a record");
}
