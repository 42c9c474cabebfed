//! A check of a page's tags: every tag that opens is closed in turn.

/// A tag's name and attributes, or what is wrong with it.
pub struct Tag<'a> {
    pub name: &'a str,
    pub attributes: Vec<(&'a str, &'a str)>,
}

impl Tag<'_> {
    pub fn get(&self, name: &str) -> Option<&str> {
        let found = self.attributes.iter().find(|(known, _)| *known == name);
        found.map(|(_, value)| *value)
    }

    pub fn number(&self, name: &str) -> u64 {
        self.get(name)
            .and_then(|word| word.parse().ok())
            .expect(name)
    }
}

fn read_tag(text: &str) -> Result<Tag<'_>, String> {
    let end = text.find(char::is_whitespace).unwrap_or(text.len());
    let mut tag = Tag {
        name: &text[..end],
        attributes: Vec::new(),
    };
    let mut rest = text[end..].trim_start();
    while !rest.is_empty() {
        let (name, after) = rest.split_once("=\"").ok_or(format!("attribute: {rest}"))?;
        let (value, after) = after.split_once('"').ok_or(format!("value: {rest}"))?;
        let plain = name.chars().all(|letter| {
            letter.is_ascii_lowercase() || "-ABCDEFGHIJKLMNOPQRSTUVWXYZ0123456789".contains(letter)
        });
        if name.is_empty() || !plain || tag.get(name).is_some() {
            return Err(format!("attribute name: {name}"));
        }
        tag.attributes.push((name, value));
        rest = after.trim_start();
    }
    Ok(tag)
}

fn entities(text: &str) -> Result<(), String> {
    for part in text.split('&').skip(1) {
        if !["amp;", "lt;", "gt;", "quot;"]
            .iter()
            .any(|known| part.starts_with(known))
        {
            return Err(format!("entity: {part}"));
        }
    }
    Ok(())
}

/// All tags of a page in which every tag that opens is closed in turn; or what is wrong.
pub fn well_formed(page: &str) -> Result<Vec<Tag<'_>>, String> {
    let body = page.strip_prefix("<!DOCTYPE html>\n").ok_or("no doctype")?;
    let (mut tags, mut open) = (Vec::new(), Vec::new());
    let mut rest = body;
    while let Some(at) = rest.find('<') {
        entities(&rest[..at])?;
        if rest[..at].contains('>') || (open.is_empty() && !rest[..at].trim().is_empty()) {
            return Err(format!("text: {}", &rest[..at]));
        }
        let (inside, after) = rest[at + 1..]
            .split_once('>')
            .ok_or("an open tag at the end")?;
        rest = after;
        if let Some(name) = inside.strip_prefix('/') {
            let opened = open.pop();
            if opened != Some(name) {
                return Err(format!("{opened:?} is closed by {name}"));
            }
            continue;
        }
        entities(inside)?;
        let alone = inside.strip_suffix('/');
        let tag = read_tag(alone.unwrap_or(inside))?;
        if alone.is_none() {
            open.push(tag.name);
        }
        tags.push(tag);
    }
    match (open.as_slice(), rest.trim()) {
        ([], "") => Ok(tags),
        _ => Err(format!("not closed: {open:?}, after it {rest}")),
    }
}
