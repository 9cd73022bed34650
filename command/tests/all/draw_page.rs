//! Reading a drawn page: a small reader of markup that panics where the page isn't well-formed.

use std::collections::BTreeMap;

#[derive(Debug, Default)]
pub struct Element {
    pub name: String,
    attributes: BTreeMap<String, String>,
    pub children: Vec<Element>,
    /// Its own text, without that of the elements in it.
    pub text: String,
}

impl Element {
    pub fn attribute(&self, name: &str) -> &str {
        self.attributes.get(name).map_or("", String::as_str)
    }

    pub fn number(&self, name: &str) -> f64 {
        self.attribute(name).parse().unwrap()
    }

    /// This element and all in it, in the page's order.
    pub fn all(&self) -> Vec<&Element> {
        let mut found = vec![self];
        self.children
            .iter()
            .for_each(|child| found.extend(child.all()));
        found
    }

    pub fn named<'a>(&'a self, name: &str) -> Vec<&'a Element> {
        self.all()
            .into_iter()
            .filter(|one| one.name == name)
            .collect()
    }

    pub fn of_class<'a>(&'a self, class: &str) -> Vec<&'a Element> {
        let has = |one: &&Element| one.attribute("class").split(' ').any(|own| own == class);
        self.all().into_iter().filter(has).collect()
    }

    pub fn by_id(&self, id: &str) -> &Element {
        let mut found = self
            .all()
            .into_iter()
            .filter(|one| one.attribute("id") == id);
        found.next().unwrap_or_else(|| panic!("no {id}"))
    }

    pub fn whole_text(&self) -> String {
        let parts = self.all().into_iter().map(|one| one.text.as_str());
        parts.collect::<String>().trim().to_string()
    }

    /// The texts of a table's rows, cell by cell; `part` is thead, tbody or tfoot.
    pub fn rows(&self, part: &str) -> Vec<Vec<String>> {
        let parts = self.named(part);
        let rows = parts.iter().flat_map(|part| part.named("tr"));
        rows.map(|row| row.children.iter().map(Element::whole_text).collect())
            .collect()
    }
}

/// The page's one root element.
pub fn read(page: &str) -> Element {
    let rest = page.strip_prefix("<!DOCTYPE html>\n").expect("a doctype");
    let mut open: Vec<Element> = vec![Element::default()];
    let mut rest = rest;
    while let Some((text, tag)) = rest.split_once('<') {
        let last = open.last_mut().unwrap();
        last.text.push_str(&unescaped(text));
        let (inside, after) = tag.split_once('>').expect("a tag ends");
        assert!(!inside.contains('<'), "{inside}");
        rest = after;
        if let Some(name) = inside.strip_prefix('/') {
            let closed = open.pop().unwrap();
            assert_eq!(closed.name, name);
            open.last_mut()
                .expect("nothing is open")
                .children
                .push(closed);
            continue;
        }
        match inside.strip_suffix('/') {
            Some(inside) => {
                let one = element(inside);
                let drawn = open.iter().any(|outer| outer.name == "svg");
                // HTML takes the slash only of elements without content; others it would leave open.
                assert!(
                    drawn || ["meta", "input"].contains(&one.name.as_str()),
                    "{inside}"
                );
                open.last_mut().unwrap().children.push(one);
            }
            None => {
                let one = element(inside);
                assert!(!["meta", "input"].contains(&one.name.as_str()), "{inside}");
                open.push(one);
            }
        }
    }
    assert_eq!(rest.trim(), "");
    let mut outside = open.pop().unwrap();
    assert!(open.is_empty(), "{} isn't closed", outside.name);
    assert_eq!((outside.children.len(), outside.text.trim()), (1, ""));
    outside.children.pop().unwrap()
}

/// A name and attributes such as `x="1"`, each once.
fn element(inside: &str) -> Element {
    let (name, mut rest) = inside.split_once(' ').unwrap_or((inside, ""));
    let mut attributes = BTreeMap::new();
    while !rest.is_empty() {
        let (key, after) = rest.split_once("=\"").expect("an attribute has a value");
        let (value, next) = after.split_once('"').expect("a value ends");
        let is_name = key.chars().all(|c| c.is_ascii_alphanumeric() || c == '-');
        assert!(is_name && !key.is_empty(), "{inside}");
        let before = attributes.insert(key.to_string(), unescaped(value));
        assert!(before.is_none(), "{key} twice");
        assert!(next.is_empty() || next.starts_with(' '), "{next}");
        rest = next.trim_start();
    }
    Element {
        name: name.to_string(),
        attributes,
        ..Element::default()
    }
}

pub fn unescaped(text: &str) -> String {
    let plain = text.replace("&lt;", "<").replace("&gt;", ">");
    let plain = plain.replace("&quot;", "\"");
    assert_eq!(plain.matches('&').count(), plain.matches("&amp;").count());
    plain.replace("&amp;", "&")
}

/// Points of a path of M, H, V, h, v, l and z with whole or decimal numbers, a list for each M.
pub fn points(d: &str) -> Vec<Vec<(f64, f64)>> {
    let mut lines: Vec<Vec<(f64, f64)>> = Vec::new();
    let starts: Vec<usize> = d
        .char_indices()
        .filter(|(_, c)| c.is_ascii_alphabetic())
        .map(|(k, _)| k)
        .collect();
    for (k, &start) in starts.iter().enumerate() {
        let end = starts.get(k + 1).copied().unwrap_or(d.len());
        let numbers: Vec<f64> = d[start + 1..end]
            .split(' ')
            .filter(|text| !text.is_empty())
            .map(|text| text.parse().unwrap())
            .collect();
        let last = lines.last().and_then(|line| line.last()).copied();
        let next = match (&d[start..start + 1], &numbers[..]) {
            ("M", &[x, y]) => {
                lines.push(vec![(x, y)]);
                continue;
            }
            ("H", &[x]) => (x, last.unwrap().1),
            ("V", &[y]) => (last.unwrap().0, y),
            ("h", &[x]) => (last.unwrap().0 + x, last.unwrap().1),
            ("v", &[y]) => (last.unwrap().0, last.unwrap().1 + y),
            ("l", &[x, y]) => (last.unwrap().0 + x, last.unwrap().1 + y),
            ("z", &[]) => continue,
            other => panic!("{other:?}"),
        };
        lines.last_mut().unwrap().push(next);
    }
    lines
}
