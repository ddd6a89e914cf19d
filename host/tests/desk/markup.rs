//! A strict reader of markup: every element closed, every attribute quoted, nothing but the four escapes.

/// An element with its attributes and what stands in it.
#[derive(Debug)]
pub struct Element {
    pub name: String,
    pub attributes: Vec<(String, String)>,
    pub children: Vec<Node>,
}

/// What stands in an element.
#[derive(Debug)]
pub enum Node {
    Element(Element),
    Text(String),
}

impl Element {
    /// The value of an attribute.
    pub fn attribute(&self, name: &str) -> Option<&str> {
        let found = self.attributes.iter().find(|(one, _)| one == name);
        found.map(|(_, value)| value.as_str())
    }

    /// The elements directly in this one.
    pub fn elements(&self) -> impl Iterator<Item = &Element> {
        self.children.iter().filter_map(|node| match node {
            Node::Element(element) => Some(element),
            Node::Text(_) => None,
        })
    }

    /// All elements of a name in this one, at any depth, in their order.
    pub fn all(&self, name: &str) -> Vec<&Element> {
        let mut found = Vec::new();
        for element in self.elements() {
            if element.name == name {
                found.push(element);
            }
            found.extend(element.all(name));
        }
        found
    }

    /// All text in this element.
    pub fn text(&self) -> String {
        let one = |node: &Node| match node {
            Node::Element(element) => element.text(),
            Node::Text(text) => text.clone(),
        };
        self.children.iter().map(one).collect()
    }
}

/// Reads a document behind its `<!DOCTYPE html>`, or panics where it is not well formed.
pub fn document(text: &str) -> Element {
    let text = text
        .strip_prefix("<!DOCTYPE html>\n")
        .expect("a document type");
    let mut rest = text;
    let element = element(&mut rest);
    assert_eq!(rest.trim(), "", "behind the last element");
    element
}

/// Reads an element that begins here.
fn element(rest: &mut &str) -> Element {
    let inner = rest
        .strip_prefix('<')
        .unwrap_or_else(|| panic!("no element at {:?}", front(rest)));
    let end = inner.find('>').expect("the end of a tag");
    *rest = &inner[end + 1..];
    let (tag, is_closed) = match inner[..end].strip_suffix(" /") {
        Some(tag) => (tag, true),
        None => (&inner[..end], false),
    };
    let (name, attributes) = tag.split_once(' ').unwrap_or((tag, ""));
    assert!(is_name(name), "an element {name:?}");
    let mut element = Element {
        name: name.to_string(),
        attributes: read_attributes(attributes),
        children: Vec::new(),
    };
    if !is_closed {
        read_children(rest, &mut element);
    }
    element
}

/// Reads what stands in an element, and its end.
fn read_children(rest: &mut &str, element_: &mut Element) {
    let end = format!("</{}>", element_.name);
    loop {
        let next = rest.find('<').unwrap_or_else(|| panic!("no {end}"));
        if next > 0 {
            element_.children.push(Node::Text(unescaped(&rest[..next])));
            *rest = &rest[next..];
        }
        if let Some(behind) = rest.strip_prefix(end.as_str()) {
            *rest = behind;
            return;
        }
        element_.children.push(Node::Element(element(rest)));
    }
}

/// Reads attributes: names with quoted values, a blank between them.
fn read_attributes(text: &str) -> Vec<(String, String)> {
    let mut attributes: Vec<(String, String)> = Vec::new();
    let mut rest = text;
    while !rest.is_empty() {
        let (name, behind) = rest
            .split_once("=\"")
            .unwrap_or_else(|| panic!("no value in {rest:?}"));
        let (value, behind) = behind.split_once('"').expect("the end of a value");
        assert!(is_name(name), "an attribute {name:?}");
        assert!(
            attributes.iter().all(|(one, _)| one != name),
            "{name} twice"
        );
        attributes.push((name.to_string(), unescaped(value)));
        rest = match behind.strip_prefix(' ') {
            Some(more) => more,
            None => {
                assert_eq!(behind, "", "behind a value");
                behind
            }
        };
    }
    attributes
}

fn is_name(name: &str) -> bool {
    let letter = |c: char| c.is_ascii_alphanumeric() || c == '-';
    name.starts_with(|c: char| c.is_ascii_alphabetic()) && name.chars().all(letter)
}

/// A text without its escapes.
fn unescaped(text: &str) -> String {
    assert!(!text.contains(['<', '>']), "an angle in {text:?}");
    let mut parts = text.split('&');
    let mut plain = parts.next().unwrap_or_default().to_string();
    for part in parts {
        let escapes = [("amp;", '&'), ("lt;", '<'), ("gt;", '>'), ("quot;", '"')];
        let found = escapes.iter().find(|(escape, _)| part.starts_with(escape));
        let (escape, c) = found.unwrap_or_else(|| panic!("an ampersand in {text:?}"));
        plain.push(*c);
        plain += &part[escape.len()..];
    }
    plain
}

fn front(text: &str) -> &str {
    text.lines().next().unwrap_or_default()
}

/// The reader itself refuses what is not well formed.
#[test]
fn what_is_not_well_formed() {
    let wrong = [
        "<p>",
        "<p></b></p>",
        "<p a=b></p>",
        "<p a></p>",
        "<p>a & b</p>",
        "<br>",
        "<p>&nbsp;</p>",
        "<p a=\"<\"></p>",
        "<p a=\"1\" a=\"2\"></p>",
        "<p></p>x",
        "<p a=\"1\"b=\"2\"></p>",
        "<p>></p>",
    ];
    for text in wrong {
        let text = format!("<!DOCTYPE html>\n{text}");
        let read = std::panic::catch_unwind(|| document(&text));
        assert!(read.is_err(), "{text}");
    }
    let right = document("<!DOCTYPE html>\n<p a=\"&lt;&quot;\">1 &amp; <br /><b>2</b></p>\n");
    assert_eq!(
        (right.attribute("a"), right.text().as_str()),
        (Some("<\""), "1 & 2")
    );
}
