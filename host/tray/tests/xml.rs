//! A strict reader of XML, for what the tool writes: one root, tags that match, attributes once, known entities.

use std::collections::HashMap;

#[derive(Debug)]
pub struct Element {
    pub name: String,
    pub attributes: HashMap<String, String>,
    pub children: Vec<Element>,
    pub text: String,
}

impl Element {
    pub fn get(&self, name: &str) -> &str {
        self.attributes.get(name).map_or("", String::as_str)
    }

    pub fn number(&self, name: &str) -> f64 {
        self.get(name).parse().unwrap_or_else(|_| panic!("{name} of {self:?}"))
    }

    pub fn has_class(&self, class: &str) -> bool {
        self.get("class").split(' ').any(|word| word == class)
    }

    pub fn all(&self) -> Vec<&Element> {
        std::iter::once(self).chain(self.children.iter().flat_map(Element::all)).collect()
    }

    pub fn with_class<'a>(&'a self, class: &str) -> Vec<&'a Element> {
        self.all().into_iter().filter(|element| element.has_class(class)).collect()
    }

    pub fn child(&self, name: &str) -> &Element {
        self.children.iter().find(|child| child.name == name).unwrap_or_else(|| panic!("no {name} in {self:?}"))
    }
}

struct Reader<'a> {
    rest: &'a str,
}

fn entities(text: &str) -> Result<String, String> {
    let mut parts = text.split('&');
    let mut plain = parts.next().unwrap_or("").to_string();
    for part in parts {
        let (entity, after) = part.split_once(';').ok_or(format!("& alone in {text:?}"))?;
        let letter = match entity {
            "amp" => '&',
            "lt" => '<',
            "gt" => '>',
            "quot" => '"',
            _ => {
                let number = entity.strip_prefix('#').and_then(|digits| digits.parse().ok());
                number.and_then(char::from_u32).ok_or(format!("unknown entity &{entity};"))?
            }
        };
        plain.push(letter);
        plain += after;
    }
    Ok(plain)
}

impl<'a> Reader<'a> {
    fn until(&mut self, stop: &str) -> Result<&'a str, String> {
        let end = self.rest.find(stop).ok_or(format!("{stop:?} is missing"))?;
        let part = &self.rest[..end];
        self.rest = &self.rest[end + stop.len()..];
        Ok(part)
    }

    fn attributes(mut text: &str) -> Result<HashMap<String, String>, String> {
        let mut attributes = HashMap::new();
        loop {
            let trimmed = text.trim_start();
            if trimmed.is_empty() {
                return Ok(attributes);
            }
            if trimmed.len() == text.len() {
                return Err(format!("no space before {text:?}"));
            }
            let (name, after) = trimmed.split_once("=\"").ok_or(format!("no value: {trimmed:?}"))?;
            let (value, after) = after.split_once('"').ok_or(format!("no closing quote: {trimmed:?}"))?;
            if value.contains('<') || name.contains(char::is_whitespace) {
                return Err(format!("bad attribute {name:?}"));
            }
            if attributes.insert(name.to_string(), entities(value)?).is_some() {
                return Err(format!("{name} twice"));
            }
            text = after;
        }
    }

    /// An element whose `<` has been read.
    fn element(&mut self) -> Result<Element, String> {
        let tag = self.until(">")?;
        let (tag, closed) = tag.strip_suffix('/').map_or((tag, false), |tag| (tag, true));
        let end = tag.find(char::is_whitespace).unwrap_or(tag.len());
        let name = tag[..end].to_string();
        if name.is_empty() || !name.chars().all(|letter| letter.is_ascii_alphanumeric()) {
            return Err(format!("bad name {name:?}"));
        }
        let attributes = Reader::attributes(&tag[end..])?;
        let mut element = Element { name, attributes, children: Vec::new(), text: String::new() };
        if closed {
            return Ok(element);
        }
        loop {
            let text = self.until("<")?;
            if text.contains('>') && element.name != "style" {
                return Err(format!("> alone in {text:?}"));
            }
            element.text += &entities(text)?;
            if let Some(rest) = self.rest.strip_prefix('/') {
                self.rest = rest;
                let name = self.until(">")?;
                return if name == element.name {
                    Ok(element)
                } else {
                    Err(format!("<{}> ended by </{name}>", element.name))
                };
            }
            let child = self.element()?;
            element.children.push(child);
        }
    }
}

pub fn parse(text: &str) -> Result<Element, String> {
    let text = text.strip_prefix("<!DOCTYPE html>\n").unwrap_or(text);
    let mut reader = Reader { rest: text.strip_prefix('<').ok_or("no root")? };
    let root = reader.element()?;
    match reader.rest.trim() {
        "" => Ok(root),
        rest => Err(format!("after the root: {rest:?}")),
    }
}

#[test]
fn it_is_strict() {
    assert!(parse("<a b=\"1\"><c/>x &lt; y</a>\n").is_ok());
    for bad in [
        "<a>",
        "<a></b>",
        "<a b=1></a>",
        "<a b=\"1\" b=\"2\"/>",
        "<a/><b/>",
        "<a>&nbsp;</a>",
        "<a b=\"<\"/>",
        "x",
        "<a>></a>",
    ] {
        assert!(parse(bad).is_err(), "{bad}");
    }
}
