//! The name of a row's partner (SHEETS 8).

#[derive(Clone, Debug, PartialEq, Eq)]
pub struct Lookup {
    /// The kind of ending.
    pub kind: u8,
    pub partner: u16,
    /// The two name lists.
    pub tracks: Vec<u8>,
    pub walls: Vec<u8>,
}

impl Lookup {
    pub fn name(&self) -> &[u8] {
        let list = match self.kind {
            1 | 2 => &self.tracks,
            3 => &self.walls,
            _ => return &[],
        };
        name_in(list, self.partner).unwrap_or_default()
    }
}

/// The place and length of the name in the first whole entry with an id, if no entry before it is cut short (SHEETS 8.1, 8.3).
pub fn place_in(list: &[u8], id: u16) -> Option<(usize, usize)> {
    let mut at = 0;
    loop {
        let head = list.get(at..at + 3)?;
        let (start, size) = (at + 3, usize::from(head[2]));
        list.get(start..start + size)?;
        if head[..2] == id.to_le_bytes() {
            return Some((start, size));
        }
        at = start + size;
    }
}

/// The name itself.
pub fn name_in(list: &[u8], id: u16) -> Option<&[u8]> {
    place_in(list, id).map(|(start, size)| &list[start..start + size])
}

/// The bytes of an entry; a name has at most 255.
pub fn entry(id: u16, name: &[u8]) -> Vec<u8> {
    let length = u8::try_from(name.len()).expect("a name of at most 255 bytes");
    [&id.to_le_bytes(), &[length][..], name].concat()
}
